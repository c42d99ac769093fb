#!/usr/bin/env bash
# Plays sessions between the nodes of two principals, a step of each session in turn, with 1, 64 and 4,096 live sessions among 1, 1,024 and 65,535
# joins, and prints the acts and the deliveries per second. Rates that are alike show that a call costs the same however many other sessions and joins
# there are. Each is of the median call, so that other work on the machine shows in it as little as can be. If valgrind is there, it prints beside
# them the instructions of an act and its delivery, on which other work has no influence. What a flood of refused deliveries takes shows
# bench/node-floods.sh. The program is made in a folder of its own, over this repository's crates. Needs python3; no part of the gate.
set -eu
source "$(dirname "${BASH_SOURCE[0]}")/common.sh"
program node_calls sg_base sg_crypt sg_keys sg_node sg_program
cat >"$bench/src/main.rt" <<'RATTLE'
//! Plays sessions between the nodes of two principals, and tells what each act and each delivery takes.
#![tactic(auto)]

use sg_base::{Label, Name, Sid, read_number};
use sg_crypt::{Cast, Notes, session_id};
use sg_keys::Keyring;
use sg_node::Node;
use sg_program::{Program, Programs};
use std::alloc::Global;
use std::time::Instant;
use std::{fs, io};

const ASK: Label = Label(0);

const ANSWER: Label = Label(1);

// How many sessions both nodes join, how many of these are over before the play, and how many rounds are played of the others.
#[derive(Clone, Copy)]
struct Task {
    joins: u64,
    over: u64,
    rounds: u64,
}

fn main(rt: HostRuntime) -> io::Result<()> {
    let _ = play(&rt);
    Ok(())
}

fn play(rt: &HostRuntime) -> Option<()> {
    let line = fs::read(rt, "task").ok()?;
    let task = task_of(line.as_slice())?;
    let of_a = programs(rt, "program.a")?;
    let of_b = programs(rt, "program.b")?;
    play_programs(rt, task, &of_a, &of_b)
}

fn task_of(line: &[u8]) -> Option<Task> {
    let mut words = line.split(|byte| *byte == b' ');
    let joins = read_number(words.next()?, 65_536)?;
    let over = read_number(words.next()?, 65_536)?;
    let rounds = read_number(words.next()?, 1_000_000)?;
    Some(Task {
        joins,
        over,
        rounds,
    })
}

fn play_programs(rt: &HostRuntime, task: Task, of_a: &Programs, of_b: &Programs) -> Option<()> {
    let digest = *of_a.as_slice().first()?.digest();
    let mut a = node(rt, "keys.a", of_a)?;
    let mut b = node(rt, "keys.b", of_b)?;
    play_nodes(rt, task, digest, &mut a, &mut b)
}

fn play_nodes(
    rt: &HostRuntime,
    task: Task,
    digest: [u8; 32],
    a: &mut Node,
    b: &mut Node,
) -> Option<()> {
    let mut notes = Notes::new(rt.alloc());
    let sids = join_all(rt.alloc(), a, b, digest, task, &mut notes)?;
    for _ in 0..task.rounds {
        step_all(rt, b, a, sids.as_slice(), ANSWER, &mut notes)?;
        step_all(rt, a, b, sids.as_slice(), ASK, &mut notes)?;
    }
    Some(())
}

fn programs(rt: &HostRuntime, file: &str) -> Option<Programs> {
    let text = fs::read(rt, file).ok()?;
    let program = Program::load(rt.alloc(), text.as_slice()).ok()?;
    let mut programs = Programs::new(rt.alloc());
    programs.add(program).ok()?;
    Some(programs)
}

fn node<'p>(rt: &HostRuntime, file: &str, programs: &'p Programs) -> Option<Node<'p>> {
    let text = fs::read(rt, file).ok()?;
    let keys = Keyring::from_toml(rt.alloc(), text.as_slice()).ok()?;
    Node::new(rt.alloc(), keys, programs).ok()
}

// The cast of a and b, with a number as its nonce.
fn cast(digest: [u8; 32], number: u64) -> Option<Cast> {
    let mut nonce = [0; 16];
    nonce[8..].copy_from_slice(number.to_be_bytes().as_slice());
    Cast::new(1, digest, nonce, &[Name::new(b"a")?, Name::new(b"b")?])
}

// The joins of both nodes; gives the sessions that stay live.
fn join_all(
    alloc: Global,
    a: &mut Node,
    b: &mut Node,
    digest: [u8; 32],
    task: Task,
    notes: &mut Notes,
) -> Option<Vec<Sid>> {
    let mut live = Vec::new(alloc);
    for number in 0..task.joins {
        let sid = join(a, b, cast(digest, number)?, notes)?;
        if number < task.over {
            a.abandon(sid).ok()?;
            b.abandon(sid).ok()?;
        } else {
            live.push(sid).ok()?;
        }
    }
    Some(live)
}

// A session that a starts, and that b joins by its first frame.
fn join(a: &mut Node, b: &mut Node, cast: Cast, notes: &mut Notes) -> Option<Sid> {
    let sid = session_id(&cast);
    a.start(cast, notes).ok()?;
    let frame = act(a, sid, ASK, notes)?;
    take(b, frame.as_slice(), notes)?;
    Some(sid)
}

// The frame of a step.
fn act(node: &mut Node, sid: Sid, label: Label, notes: &mut Notes) -> Option<Vec<u8>> {
    notes.clear();
    let (_, sealed) = node.act(sid, label, &[], &[], notes).ok()?;
    Some(sealed.release().1)
}

fn take(node: &mut Node, bytes: &[u8], notes: &mut Notes) -> Option<()> {
    notes.clear();
    node.deliver(bytes, notes).ok()?;
    Some(())
}

// A step of each session, from one node to the other.
fn step_all(
    rt: &HostRuntime,
    from: &mut Node,
    to: &mut Node,
    sids: &[Sid],
    label: Label,
    notes: &mut Notes,
) -> Option<()> {
    for sid in sids {
        step(rt, from, to, *sid, label, notes)?;
    }
    Some(())
}

// Writes how long the act and the delivery take, in nanoseconds.
fn step(
    rt: &HostRuntime,
    from: &mut Node,
    to: &mut Node,
    sid: Sid,
    label: Label,
    notes: &mut Notes,
) -> Option<()> {
    let start = Instant::now(rt).ok()?;
    let frame = act(from, sid, label, notes)?;
    let acted = start.elapsed(rt).ok()?;
    let start = Instant::now(rt).ok()?;
    take(to, frame.as_slice(), notes)?;
    let taken = start.elapsed(rt).ok()?;
    println!(rt; "{} {}", acted.as_nanos(), taken.as_nanos()).ok()
}
RATTLE
mkdir "$bench/data"
for file in task program.a program.b keys.a keys.b; do : >"$bench/data/$file"; done
made=$(built)
cat >"$folder/pair.graph" <<'GRAPH'
graph pair;
role a;
role b;
node n0: a;
node n1: b;
edge Ask: n0 -> n1;
edge Answer: n1 -> n0;
GRAPH
key=$(printf '1%.0s' {1..64})
for role in a b; do
    other=$(tr ab ba <<<"$role")
    python3 "$here/tools/model.py" compile "$folder/pair.graph" "$role" >"$folder/program.$role"
    printf 'me = "%s"\nlisten = "127.0.0.1:4001"\n[[peer]]\nname = "%s"\naddr = "127.0.0.1:4002"\nkey = "%s"\n' "$role" "$other" "$key" >"$folder/keys.$role"
done
python3 - "$made" "$folder" <<'PYTHON'
import re
import shutil
import statistics
import subprocess
import sys

program, folder = sys.argv[1:]
STEPS = 32_768


def play(joins, live, rounds, *before):
    """What the program tells of the acts and the deliveries of so many rounds, two for each live session and round, and what stands on standard error."""
    with open(folder + '/task', 'w') as out:
        out.write(f'{joins} {joins - live} {rounds}')
    ran = subprocess.run([*before, program], cwd=folder, capture_output=True, text=True, check=True)
    rows = [[int(word) for word in line.split()] for line in ran.stdout.split('\n')[:-1]]
    if len(rows) != 2 * live * rounds:
        sys.exit(f'{joins} joins, {live} live: {len(rows)} steps')
    return rows, ran.stderr


def rates(joins, live):
    """The acts and the deliveries in a second."""
    rows, _ = play(joins, live, STEPS // 2 // live)
    return [1e9 / statistics.median(row[place] for row in rows) for place in (0, 1)]


def instructions(joins, live):
    """The instructions of an act and its delivery: what rounds take more than half as many do."""
    rounds = max(4, 128 // live)
    counts = []
    for some in (rounds // 2, rounds):
        _, said = play(joins, live, some, 'valgrind', '--tool=callgrind', '--callgrind-out-file=/dev/null')
        counts.append(int(re.search(r'Collected : (\d+)', said)[1]))
    return (counts[1] - counts[0]) / (2 * live * (rounds - rounds // 2))


has_valgrind = shutil.which('valgrind') is not None
names, columns = ['acts', 'deliveries'] + ['instructions'] * has_valgrind, []
for live in (1, 64, 4_096):
    for joins in sorted({live, 1_024, 65_535}):
        if live <= joins:
            columns.append(rates(joins, live) + ([instructions(joins, live)] if has_valgrind else []))
            acts, deliveries, *counted = columns[-1]
            print(f'{live} live sessions, {joins} joins: {acts:.0f} acts/s, {deliveries:.0f} deliveries/s'
                  + ''.join(f', {count:.0f} instructions for both' for count in counted), flush=True)
for name, column in zip(names, zip(*columns)):
    print(f'{name}: the highest is {max(column) / min(column):.2f} times the lowest')
PYTHON

#!/usr/bin/env bash
# Floods a node alone with hostile deliveries, a million for each refusal that a node has, in one run each, without a schedule, a record or a report.
# Prints for each the deliveries in a second of a processor, in the quicker of this run and one with half as many, with all that stands before the flood;
# and the peak memory of both: a refusal leaves nothing behind if these are the same, but for a part of a MiB. Each delivery must be refused alike, and
# the frame that was awaited be taken behind them. The hostile bytes are those of bench/floods.sh, as tools/model.py makes them. The program is made in a
# folder of its own, over this repository's crates. Needs python3; no part of the gate.
#
#     bench/node-floods.sh [DELIVERIES]
set -eu
source "$(dirname "${BASH_SOURCE[0]}")/common.sh"
program one_node sg_base sg_crypt sg_keys sg_node sg_program sg_receipt
cat >"$bench/src/main.rt" <<'RATTLE'
//! Gives a node the same bytes again and again, each of which it must refuse alike.
#![tactic(auto)]

use sg_base::{Name, Sid, read_number};
use sg_crypt::{Cast, Notes, session_id};
use sg_keys::Keyring;
use sg_node::Node;
use sg_program::{Program, Programs};
use sg_receipt::Refusal;
use std::{fs, io};

// What is done before: how many sessions the node starts with a partner, with nonces from the first one on, and how many of these it abandons; and how
// often it is given the hostile bytes.
#[derive(Clone, Copy)]
struct Task {
    starts: u64,
    over: u64,
    first: u64,
    count: u64,
    names: [Name; 2],
}

fn main(rt: HostRuntime) -> io::Result<()> {
    match flooded(&rt) {
        Some(refusal) => println!(rt; "{refusal}"),
        None => Ok(()),
    }
}

fn flooded(rt: &HostRuntime) -> Option<u8> {
    let line = fs::read(rt, "task").ok()?;
    let task = task_of(line.as_slice())?;
    let mut programs = Programs::new(rt.alloc());
    add(rt, "program", &mut programs)?;
    add(rt, "other", &mut programs)?;
    flood_programs(rt, &programs, task)
}

fn task_of(line: &[u8]) -> Option<Task> {
    let mut words = line.split(|byte| *byte == b' ');
    let starts = read_number(words.next()?, 65_536)?;
    let over = read_number(words.next()?, 65_536)?;
    let first = read_number(words.next()?, 65_536)?;
    let count = read_number(words.next()?, 1_000_000_000)?;
    let names = [Name::new(words.next()?)?, Name::new(words.next()?)?];
    Some(Task {
        starts,
        over,
        first,
        count,
        names,
    })
}

// Adds the program of a file, if there is one.
fn add(rt: &HostRuntime, file: &str, programs: &mut Programs) -> Option<()> {
    let text = fs::read(rt, file).ok()?;
    if !text.is_empty() {
        let program = Program::load(rt.alloc(), text.as_slice()).ok()?;
        programs.add(program).ok()?;
    }
    Some(())
}

fn flood_programs(rt: &HostRuntime, programs: &Programs, task: Task) -> Option<u8> {
    let digest = *programs.as_slice().first()?.digest();
    let mut node = node(rt, programs)?;
    let mut notes = Notes::new(rt.alloc());
    start_all(&mut node, digest, task, &mut notes)?;
    flood_node(rt, &mut node, task.count, &mut notes)
}

fn node<'p>(rt: &HostRuntime, programs: &'p Programs) -> Option<Node<'p>> {
    let text = fs::read(rt, "keys").ok()?;
    let keys = Keyring::from_toml(rt.alloc(), text.as_slice()).ok()?;
    Node::new(rt.alloc(), keys, programs).ok()
}

// Starts the sessions of the task, and abandons those that are over.
fn start_all(node: &mut Node, digest: [u8; 32], task: Task, notes: &mut Notes) -> Option<()> {
    for number in 0..task.starts {
        let cast = cast(digest, &task.names, number.wrapping_add(task.first))?;
        let sid = start(node, cast, notes)?;
        if number < task.over {
            node.abandon(sid).ok()?;
        }
    }
    Some(())
}

fn start(node: &mut Node, cast: Cast, notes: &mut Notes) -> Option<Sid> {
    let sid = session_id(&cast);
    notes.clear();
    node.start(cast, notes).ok()?;
    Some(sid)
}

// The cast of two principals in a graph, with a number as its nonce.
fn cast(digest: [u8; 32], names: &[Name], number: u64) -> Option<Cast> {
    let mut nonce = [0; 16];
    nonce[8..].copy_from_slice(number.to_be_bytes().as_slice());
    Cast::new(1, digest, nonce, names)
}

fn flood_node(rt: &HostRuntime, node: &mut Node, count: u64, notes: &mut Notes) -> Option<u8> {
    take(rt, "before", node, notes)?;
    let hostile = fs::read(rt, "hostile").ok()?;
    let refusal = flood(node, hostile.as_slice(), count, notes)?;
    take(rt, "behind", node, notes)?;
    Some(refusal)
}

// Gives the node the bytes of a file, which it must take, if there are any.
fn take(rt: &HostRuntime, file: &str, node: &mut Node, notes: &mut Notes) -> Option<()> {
    let bytes = fs::read(rt, file).ok()?;
    notes.clear();
    if !bytes.is_empty() {
        node.deliver(bytes.as_slice(), notes).ok()?;
    }
    Some(())
}

// The number of the refusal of these bytes, which is the same so many times.
fn flood(node: &mut Node, bytes: &[u8], count: u64, notes: &mut Notes) -> Option<u8> {
    let number = refused(node, bytes, notes)?;
    for _ in 0..count {
        if refused(node, bytes, notes)? != number {
            return None;
        }
    }
    Some(number)
}

fn refused(node: &mut Node, bytes: &[u8], notes: &mut Notes) -> Option<u8> {
    notes.clear();
    let refusal = node.deliver(bytes, notes).err()?;
    Some(number_of(refusal))
}

fn number_of(refusal: Refusal) -> u8 {
    match refusal {
        Refusal::Malformed { .. } => 1,
        Refusal::UnknownGraph => 2,
        Refusal::BadCast => 3,
        Refusal::UnknownPeer { .. } => 4,
        Refusal::BadSession => 5,
        Refusal::Joined => 6,
        Refusal::CacheFull => 7,
        Refusal::SessionsFull => 8,
        Refusal::UnknownSession => 9,
        Refusal::NotWaiting => 10,
        Refusal::BadFrameTag => 11,
        Refusal::NoSuchView => 12,
        Refusal::BadTime { .. } => 13,
        Refusal::BadEvidence { .. } => 14,
        Refusal::BadOpening { .. } => 15,
        Refusal::OutOfMemory => 16,
    }
}
RATTLE
mkdir "$bench/data"
for file in task keys program other before hostile behind; do : >"$bench/data/$file"; done
made=$(built)
python3 - "$made" "$folder" "$here" "${1-1000000}" <<'PYTHON'
import re
import resource
import subprocess
import sys
import time

program, folder, here, total = sys.argv[1], sys.argv[2], sys.argv[3], int(sys.argv[4])
sys.dont_write_bytecode = True
sys.path[:0] = [f'{here}/bench', f'{here}/tools']
import model
from hostile_deliveries import FLOODS

# The refusals, in the order of their numbers.
REFUSALS = ['malformed', 'unknown-graph', 'bad-cast', 'unknown-peer', 'bad-session', 'joined', 'cache-full', 'sessions-full', 'unknown-session',
            'not-waiting', 'bad-frame-tag', 'no-such-view', 'bad-time', 'bad-evidence', 'bad-opening']

def frame(run, words):
    """The bytes of a delivery, `deliver NAME fN [KIND AT]`."""
    change = (words[3], int(words[4])) if len(words) > 3 else None
    return model.changed(run.frames[int(words[2][1:]) - 1], change)


def key_file(me, keys):
    """A principal's key file."""
    peers = [(next(iter(pair - {me})), key.hex()) for pair, key in keys.items() if me in pair]
    return f'me = "{me}"\nlisten = "127.0.0.1:4001"\n' + ''.join(
        f'[[peer]]\nname = "{name}"\naddr = "127.0.0.1:{4002 + place}"\nkey = "{key}"\n' for place, (name, key) in enumerate(peers))


def files_of(head, before, hostile, last):
    """What stands in the files of the program for a case, but for the number of deliveries."""
    # (sessions that are only there to be many are not needed for the frames)
    run = model.run_of((head + '\n'.join(step for step in before if not re.search(r' t\d+$', step)) + '\n').encode())
    me = hostile.split()[1]
    own = [step.split() for step in before if step.split()[1] == me]
    starts = [words[2] for words in own if words[0] == 'start']
    over = [words[2] for words in own if words[0] == 'abandon']
    casts = [run.schedule.sessions[name] for name in starts] or [next(iter(run.schedule.sessions.values()))]
    graphs = [casts[0].graph] + [graph for graph in run.schedule.graphs if graph is not casts[0].graph]
    texts = []
    for graph in graphs:
        cast = next(declared.cast for declared in run.schedule.sessions.values() if declared.graph is graph)
        texts.append(model.program_text(graph, cast.names.index(me)))
    partner = next(name for name in casts[0].cast.names if name != me)
    taken = [frame(run, words) for words in own if words[0] == 'deliver']
    behind = last[0].split()
    return {'task': f'{len(starts)} {len(over)} {int.from_bytes(casts[0].cast.nonce, "big") if starts else 0} {{}} {me} {partner}'.encode(),
            'keys': key_file(me, run.schedule.keys).encode(), 'program': texts[0].encode(), 'other': (texts[1:] or [''])[0].encode(),
            'before': (taken or [b''])[0], 'hostile': frame(run, hostile.split()), 'behind': frame(run, behind) if behind[0] == 'deliver' else b''}


def high_water(pid):
    """The peak memory of a process until now, in bytes. (That of a child's use begins with the peak of the process that made it.)"""
    with open(f'/proc/{pid}/status') as status:
        found = re.search(r'VmHWM:\s+(\d+) kB', status.read())
    return int(found[1]) * 1024 if found else 0


def flood(name, files, count):
    """The seconds of a processor and the peak of a run with so many hostile deliveries."""
    for file, data in files.items():
        with open(f'{folder}/{file}', 'wb') as out:
            out.write(data.replace(b'{}', b'%d' % count) if file == 'task' else data)
    before, peak = resource.getrusage(resource.RUSAGE_CHILDREN), 0
    child = subprocess.Popen([program], cwd=folder, stdout=subprocess.PIPE, text=True)
    while child.poll() is None:
        peak = max(peak, high_water(child.pid))
        time.sleep(0.001)
    used, said = resource.getrusage(resource.RUSAGE_CHILDREN), child.stdout.read().split()
    if child.returncode != 0 or said != [str(REFUSALS.index(name) + 1)]:
        sys.exit(f'{name}: status {child.returncode}, {said}')
    return used.ru_utime + used.ru_stime - before.ru_utime - before.ru_stime, peak


for name, head, before, hostile, _, last in FLOODS:
    if name in REFUSALS:
        files = files_of(head, before, hostile, last)
        half_took, half = flood(name, files, total // 2)
        took, peak = flood(name, files, total)
        rate = max(total / took, total // 2 / half_took)
        print(f'{name}: {rate:.0f} deliveries in a second of a processor, peak {peak / 2 ** 20:.2f} MiB, '
              f'of half as many {half / 2 ** 20:.2f} MiB', flush=True)
PYTHON

#!/usr/bin/env bash
# Plays the part of each role in two sessions again and again, one of two roles that ask and answer and one of the shop, and prints for each of its calls
# what it takes to `send` a step, or to `examine` a frame and `accept` it: microseconds, and beside them the tags and digests that the call noted, made
# again right after it, and the ratio. The tags are made twice: by sg_crypt's `Key::tag`, as the product makes them, whose key is ready, and by its `tag`,
# which hashes both blocks of the key anew. Each figure is of the quickest of 2,000 plays, so that other work on the machine shows in it as little as can
# be, without what it takes to look at the clock. The frames that a role hears are made by tools/model.py. The program is made in a folder of its own,
# over this repository's crates. Needs python3; no part of the gate.
set -eu
source "$(dirname "${BASH_SOURCE[0]}")/common.sh"
program role_calls hex sg_base sg_cache sg_crypt sg_frame sg_keys sg_program sg_role sha2
cat >"$bench/src/main.rt" <<'RATTLE'
//! Plays a role's part of a session again and again, and tells what each of its calls takes, and the hashes of the call alone.
#![tactic(auto)]

use sg_base::{Chars, Label, Name, Value, Var};
use sg_cache::{Cache, Ticket};
use sg_crypt::{Cast, Counts, Hashed, Key, Note, Notes, tag};
use sg_frame::decode;
use sg_keys::Keyring;
use sg_program::Program;
use sg_role::{Accepted, Await, Before, SendFault, Sent, Taken, Turn, examine};
use sha2::{Digest, Sha256};
use std::alloc::Global;
use std::time::{Duration, Instant};
use std::{fs, io};

const PLAYS: u32 = 2_000;

const NONCE: [u8; 16] = [0, 0, 0, 0, 0, 0, 0, 0, 0, 0, 0, 0, 0, 0, 0, 7];

// What a role is between its calls.
#[derive(Drop)]
enum State<'p> {
    Turns(Turn<'p>),
    Waits(Await<'p>),
    Ended,
}

fn main(rt: HostRuntime) -> io::Result<()> {
    let _ = play(&rt);
    Ok(())
}

fn play(rt: &HostRuntime) -> Option<()> {
    let text = fs::read(rt, "program").ok()?;
    let program = Program::load(rt.alloc(), text.as_slice()).ok()?;
    play_program(rt, &program)
}

fn play_program(rt: &HostRuntime, program: &Program) -> Option<()> {
    let text = fs::read(rt, "keys").ok()?;
    let keys = Keyring::from_toml(rt.alloc(), text.as_slice()).ok()?;
    play_with_keys(rt, program, &keys)
}

fn play_with_keys(rt: &HostRuntime, program: &Program, keys: &Keyring) -> Option<()> {
    let names = names(rt)?;
    let moves = fs::read(rt, "moves").ok()?;
    play_moves(rt, program, keys, names.as_slice(), moves.as_slice())
}

fn names(rt: &HostRuntime) -> Option<Vec<Name>> {
    let text = fs::read(rt, "names").ok()?;
    let mut names = Vec::new(rt.alloc());
    for word in text.as_slice().split(|byte| *byte == b' ') {
        names.push(Name::new(word)?).ok()?;
    }
    Some(names)
}

fn play_moves(
    rt: &HostRuntime,
    program: &Program,
    keys: &Keyring,
    names: &[Name],
    moves: &[u8],
) -> Option<()> {
    let mut calls = Vec::new(rt.alloc());
    for _ in 0..PLAYS {
        let state = first(rt.alloc(), program, names)?;
        play_once(rt, keys, state, moves, &mut calls)?;
    }
    tell(rt, calls.as_slice())
}

// What the program's role is in a session of these principals that is new.
fn first<'p>(alloc: Global, program: &'p Program, names: &[Name]) -> Option<State<'p>> {
    if names.len() != program.graph().roles() as usize {
        return None;
    }
    let cast = Cast::new(1, *program.digest(), NONCE, names)?;
    let before = Before::start(alloc, program, cast).ok()?;
    let mut cache = Cache::new(alloc);
    let ticket = cache.claim(before.sid(), before.role()).ok()?;
    begun(ticket, before)
}

// The role that starts the graph is at its turn, and another one waits.
fn begun<'p>(ticket: Ticket, before: Before<'p>) -> Option<State<'p>> {
    match Turn::begin(ticket, before) {
        Ok(turn) => Some(State::Turns(turn)),
        Err((ticket, before)) => joined(ticket, before),
    }
}

fn joined<'p>(ticket: Ticket, before: Before<'p>) -> Option<State<'p>> {
    match Await::join(ticket, before) {
        Ok(waiting) => Some(State::Waits(waiting)),
        Err((ticket, _)) => {
            ticket.give_up();
            None
        }
    }
}

fn play_once<'p>(
    rt: &HostRuntime,
    keys: &Keyring,
    state: State<'p>,
    moves: &[u8],
    calls: &mut Vec<Call>,
) -> Option<()> {
    let mut state = state;
    for line in moves.split(|byte| *byte == b'\n') {
        state = moved(rt, keys, state, line, calls)?;
    }
    Some(())
}

// A line is the digits of the frame that a waiting role hears, or what a role at its turn sends.
fn moved<'p>(
    rt: &HostRuntime,
    keys: &Keyring,
    state: State<'p>,
    line: &[u8],
    calls: &mut Vec<Call>,
) -> Option<State<'p>> {
    match state {
        State::Turns(turn) => send(rt, keys, turn, line, calls),
        State::Waits(waiting) => {
            let bytes = hex::decode(rt.alloc(), line).ok()?;
            take(rt, keys, waiting, bytes.as_slice(), calls)
        }
        State::Ended => None,
    }
}

// Sends a step: a digit is the label, and a letter behind it says which value is written, if there is one.
fn send<'p>(
    rt: &HostRuntime,
    keys: &Keyring,
    turn: Turn<'p>,
    line: &[u8],
    calls: &mut Vec<Call>,
) -> Option<State<'p>> {
    let label = Label(line.first()?.wrapping_sub(b'0') as u16);
    let letter = line.get(1).copied();
    let value = value_of(rt.alloc(), letter);
    send_value(rt, keys, turn, label, value, confounder_of(letter), calls)
}

fn send_value<'p>(
    rt: &HostRuntime,
    keys: &Keyring,
    turn: Turn<'p>,
    label: Label,
    value: Option<(Var, Value)>,
    confounder: [u8; 16],
    calls: &mut Vec<Call>,
) -> Option<State<'p>> {
    let mut notes = Notes::new(rt.alloc());
    let start = Instant::now(rt).ok()?;
    let sent = sent(rt.alloc(), keys, turn, label, value, confounder, &mut notes);
    let spent = start.elapsed(rt);
    let state = released(sent.ok()?);
    calls.push(measured(rt, spent.ok()?, &notes)?).ok()?;
    Some(state)
}

fn value_of(alloc: Global, letter: Option<u8>) -> Option<(Var, Value)> {
    match letter {
        Some(b'o') => text_of(alloc, b"tea"),
        Some(b'r') => text_of(alloc, b"green tea"),
        Some(_) => Some((Var(1), Value::Int(40))),
        None => None,
    }
}

fn text_of(alloc: Global, text: &[u8]) -> Option<(Var, Value)> {
    Some((Var(0), Value::Text(Chars::new(alloc, text).ok()?)))
}

// What hides a value of the shop in its schedule: the number of the step, and that of the variable.
fn confounder_of(letter: Option<u8>) -> [u8; 16] {
    let (step, var) = match letter {
        Some(b'o') => (2, 0),
        Some(b'r') => (10, 0),
        _ => (6, 1),
    };
    [0, 0, 0, 0, 0, 0, 0, step, 0, 0, 0, 0, 0, 0, 0, var]
}

fn sent<'p>(
    alloc: Global,
    keys: &Keyring,
    turn: Turn<'p>,
    label: Label,
    value: Option<(Var, Value)>,
    confounder: [u8; 16],
    notes: &mut Notes,
) -> Result<Sent<'p>, (Turn<'p>, SendFault)> {
    match value {
        Some(value) => turn.send(alloc, keys, label, &[value], &[confounder], notes),
        None => turn.send(alloc, keys, label, &[], &[], notes),
    }
}

fn released<'p>(sent: Sent<'p>) -> State<'p> {
    match sent {
        Sent::Waiting(waiting, _, sealed) => {
            let _ = sealed.release();
            State::Waits(waiting)
        }
        Sent::Ended(_, _, sealed) => {
            let _ = sealed.release();
            State::Ended
        }
    }
}

fn take<'p>(
    rt: &HostRuntime,
    keys: &Keyring,
    waiting: Await<'p>,
    bytes: &[u8],
    calls: &mut Vec<Call>,
) -> Option<State<'p>> {
    let mut notes = Notes::new(rt.alloc());
    let (accepted, start) = look(rt, keys, waiting.before(), bytes, &mut notes)?;
    let state = taken(waiting, accepted)?;
    let spent = start.elapsed(rt).ok()?;
    calls.push(measured(rt, spent, &notes)?).ok()?;
    Some(state)
}

// What is accepted, and when the role began to look at it.
fn look<'p>(
    rt: &HostRuntime,
    keys: &Keyring,
    before: &Before<'p>,
    bytes: &[u8],
    notes: &mut Notes,
) -> Option<(Accepted<'p>, Instant)> {
    let frame = decode(rt.alloc(), bytes).ok()?;
    if frame.version != before.cast().version() {
        return None;
    }
    let start = Instant::now(rt).ok()?;
    let accepted = examine(rt.alloc(), before, keys, &frame, bytes, notes).ok()?;
    Some((accepted, start))
}

fn taken<'p>(waiting: Await<'p>, accepted: Accepted<'p>) -> Option<State<'p>> {
    let (_, taken) = waiting.accept(accepted).ok()?;
    match taken {
        Taken::Turn(turn) => Some(State::Turns(turn)),
        Taken::Done(_) => Some(State::Ended),
    }
}

// The nanoseconds that a call took; those of what it noted, tagged and hashed alone, with a key that is ready and with one that is not; those of the
// clock, which is in all of these; how many tags and digests there were; and a byte of them all.
#[derive(Clone, Copy)]
struct Call {
    spent: u128,
    ready: u128,
    anew: u128,
    clock: u128,
    counts: Counts,
    last: u8,
}

fn measured(rt: &HostRuntime, spent: Duration, notes: &Notes) -> Option<Call> {
    let ready = hashes(rt, notes)?;
    let anew = hashes_anew(rt, notes)?;
    let clock = Instant::now(rt).ok()?.elapsed(rt).ok()?;
    Some(Call {
        spent: spent.as_nanos(),
        ready: ready.nanoseconds,
        anew: anew.nanoseconds,
        clock: clock.as_nanos(),
        counts: notes.counts(),
        last: ready.last ^ anew.last,
    })
}

// Writes all calls, when all are made: a write between two would make the second one slower.
fn tell(rt: &HostRuntime, calls: &[Call]) -> Option<()> {
    for call in calls {
        println!(rt;
            "{} {} {} {} {} {} {} {}",
            call.spent,
            call.ready,
            call.anew,
            call.clock,
            call.counts.made,
            call.counts.found,
            call.counts.hashed,
            call.last
        )
        .ok()?;
    }
    Some(())
}

// How long hashes took, and a byte of them.
#[derive(Clone, Copy)]
struct Hashing {
    nanoseconds: u128,
    last: u8,
}

fn hashes(rt: &HostRuntime, notes: &Notes) -> Option<Hashing> {
    let key = Key::new([0x22; 32]);
    let start = Instant::now(rt).ok()?;
    let last = tags(&key, notes.made()) ^ tags(&key, notes.found()) ^ digests(notes.hashed());
    let nanoseconds = start.elapsed(rt).ok()?.as_nanos();
    Some(Hashing { nanoseconds, last })
}

fn hashes_anew(rt: &HostRuntime, notes: &Notes) -> Option<Hashing> {
    let start = Instant::now(rt).ok()?;
    let last = tags_anew(notes.made()) ^ tags_anew(notes.found()) ^ digests(notes.hashed());
    let nanoseconds = start.elapsed(rt).ok()?.as_nanos();
    Some(Hashing { nanoseconds, last })
}

fn tags(key: &Key, notes: &[Note]) -> u8 {
    let mut last = 0;
    for note in notes {
        last ^= key.tag(&[], note.text()).0[0];
    }
    last
}

fn tags_anew(notes: &[Note]) -> u8 {
    let mut last = 0;
    for note in notes {
        last ^= tag(&[0x22; 32], &[], note.text()).0[0];
    }
    last
}

fn digests(texts: &[Hashed]) -> u8 {
    let mut last = 0;
    for text in texts {
        last ^= Sha256::digest(text.as_slice())[0];
    }
    last
}
RATTLE
mkdir "$bench/data"
for file in program keys names moves; do : >"$bench/data/$file"; done
made=$(built)
python3 - "$made" "$folder" "$here" <<'PYTHON'
import subprocess
import sys

program, folder, here = sys.argv[1:]
sys.dont_write_bytecode = True
sys.path.insert(0, f'{here}/tools')
import model

PLAYS = 2_000
ROUNDS = 4
PAIR = 'edge Ask 0 1\nedge Answer 1 2\nedge Again 2 1\nhonest alice\nhonest bob\nkey alice bob ' + '1' * 64 + '\nsession s1 pair 7 alice,bob\nstart alice s1\n'
ASKED = PAIR + ''.join(f'act alice s1 {"Again" if n else "Ask"}\ndeliver bob f{2 * n + 1}\nact bob s1 Answer\ndeliver alice f{2 * n + 2}\n' for n in range(ROUNDS))
with open(f'{here}/examples/shop-honest.schedule') as file:
    SHOP = file.read()
# The letters of the values that these steps of the shop write.
VALUES = {'Order': 'o', 'Retry': 'r', 'Offer': 'p'}


def key_file(me, keys):
    """A principal's key file."""
    peers = [(next(iter(pair - {me})), key.hex()) for pair, key in keys.items() if me in pair]
    return f'me = "{me}"\nlisten = "127.0.0.1:4001"\n' + ''.join(
        f'[[peer]]\nname = "{name}"\naddr = "127.0.0.1:{4002 + place}"\nkey = "{key}"\n' for place, (name, key) in enumerate(peers))


def calls_of(run, text, me):
    """A principal's calls in order: what each is called, and its line for the program."""
    labels = [edge.label for edge in run.schedule.sessions['s1'].graph.edges]
    acts = []
    for words in (line.split() for line in text.split('\n')):
        if words[:1] == ['act']:
            acts.append(words[3])
        if words[:2] == ['act', me]:
            yield f'sends {words[3]}', str(labels.index(words[3])) + VALUES.get(words[3], '')
        if words[:2] == ['deliver', me]:
            number = int(words[2][1:]) - 1
            yield f'takes {acts[number]}', run.frames[number].hex()


def played(run, me, lines):
    """What the program tells of each call of each play of a principal's part."""
    declared = run.schedule.sessions['s1']
    files = {'program': model.program_text(declared.graph, declared.cast.names.index(me)), 'keys': key_file(me, run.schedule.keys),
             'names': ' '.join(declared.cast.names), 'moves': '\n'.join(lines)}
    for file, data in files.items():
        with open(f'{folder}/{file}', 'w') as out:
            out.write(data)
    told = subprocess.run([program], cwd=folder, stdout=subprocess.PIPE, text=True, check=True).stdout.split('\n')[:-1]
    if len(told) != PLAYS * len(lines):
        sys.exit(f'{me}: {len(told)} calls')
    return [[int(word) for word in line.split()] for line in told]


def counted(number, what):
    return f'{number} {what}' + ('' if number == 1 else 's')


NAMES = {'sends': 'send', 'takes': 'examine and accept'}
BY = ('Key::tag', 'tag')
for name, text in (('question and answer', ASKED), ('shop', SHOP)):
    run = model.run_of(text.encode())
    sums, most = {}, {}
    for me in run.schedule.sessions['s1'].cast.names:
        calls = list(calls_of(run, text, me))
        told = played(run, me, [line for _, line in calls])
        for place, (what, _) in enumerate(calls):
            rows = told[place::len(calls)]
            *took, clock = (min(row[at] for row in rows) for at in range(4))
            spent, *alone = (time - clock for time in took)
            made, found, hashed = rows[0][4:7]
            print(f'{name}, {me} {what}: {spent / 1000:.2f} microseconds; {counted(made + found, "tag")} and {counted(hashed, "digest")} alone '
                  + ', '.join(f'{time / 1000:.2f} by {by}, ratio {spent / time:.2f}' for by, time in zip(BY, alone)), flush=True)
            call = what.split()[0]
            sums[call] = [sum(pair) for pair in zip(sums.get(call, [0, 0, 0]), (spent, *alone))]
            most[call] = [max(pair) for pair in zip(most.get(call, [0, 0]), (spent / time for time in alone))]
    for call, (spent, *alone) in sums.items():
        print(f'{name}, all {NAMES[call]}: ' + ', '.join(f'beside the hashes by {by} {spent / time:.2f} times, at most {highest:.2f}'
                                                       for by, time, highest in zip(BY, alone, most[call])), flush=True)
PYTHON

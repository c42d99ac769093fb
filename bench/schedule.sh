#!/usr/bin/env bash
# Reads schedules of four mixes, starts and acts, deliveries in hexadecimal digits, crafts, and many sessions, of 200,000 steps or 100,000 sessions,
# and a tenth of each. Prints for each the megabytes per processor second, the ratio to a look at each byte, and the peak memory of the run: a schedule
# ten times as long takes ten times as long, since a line costs the same however many stand before it.
# The program is made in a folder of its own, over this repository's crates. Needs python3; no part of the gate.
set -eu
source "$(dirname "${BASH_SOURCE[0]}")/common.sh"
program texts sg_base sg_sched_text sg_sched
cat >"$bench/src/main.rt" <<'RATTLE'
//! Reads one schedule, and prints how many steps it has.
#![tactic(auto)]

use sg_sched_text::read_schedule;
use std::{fs, io};

fn main(rt: HostRuntime) -> Result<(), io::Error> {
    let bytes = fs::read(&rt, "text")?;
    if bytes.len() >= 1_000_000_000 {
        return println!(rt; "too long");
    }
    match read_schedule(rt.alloc(), bytes.as_slice()) {
        Ok(schedule) => println!(rt; "{}", schedule.steps.len()),
        Err(_) => println!(rt; "refused"),
    }
}
RATTLE
mkdir "$bench/data"
printf 'honest a\n' >"$bench/data/text"
echo 0 >"$bench/stdout"
made=$(built)
python3 - "$made" "$folder" "$here/bench" <<'PYTHON'
import os
import sys

program, folder, bench = sys.argv[1:]
sys.dont_write_bytecode = True
sys.path.insert(0, bench)
import limits

# What the steps of each mix are, how many there are, and of how many sessions.
MIXES = (
    ('starts and acts', 200_000, 1_000, ('start p1 s{0}', 'act p1 s{0} Order n={1} q="some\\x20words\\x20here"')),
    ('deliveries in hex', 200_000, 1_000, ('deliver p5 hex ' + '00112233445566778899aabbccddeeff' * 16,)),
    ('crafts', 200_000, 1_000, (
        'craft s{0} from c to p join nonce {1} item Order 1 q="tea"#1 n=5#2 tag p key p1 p2 open q="tea"#1 seal copy f{1} seal',
    )),
    ('100,000 sessions', 1_000, 100_000, ('start p1 s{0}', 'abandon p2 s{0}', 'deliver p3 f{1}', 'deliver p4 f{1} flip 7')),
)


def lines(steps, sessions, kinds):
    """two graphs, 20 principals with the keys of all pairs, sessions in turn, and steps in turn."""
    yield from ('graph {', 'graph shop;', 'role c;', 'role p;', 'var q: text by c;', 'var n: int by c;', 'node n0: c;', 'node n1: p;')
    yield from ('edge Order: n0 -> n1 writes q n reads q;', '}', 'edge Request 0 1', 'edge Reply 1 2')
    yield from (f'honest p{i}' for i in range(20))
    yield from (f'key p{i} p{j} {"1" * 64}' for i in range(20) for j in range(i))
    yield from (f'session s{i} {("shop", "pair")[i % 2]} {i} p{i % 20},p{(i + 1) % 20}{("", " v2")[i % 3 == 2]}' for i in range(sessions))
    yield from (kinds[i % len(kinds)].format(i * 2 % sessions, i + 1) for i in range(steps))


for name, steps, sessions, kinds in MIXES:
    for part in (10, 1):
        with open(folder + '/text', 'w') as out:
            out.writelines(line + '\n' for line in lines(steps // part, sessions // part, kinds))
        size = os.path.getsize(folder + '/text') / 1e6
        answer, took, peak = limits.ran([program], folder)
        if answer != b'%d\n' % (steps // part):
            sys.exit(f'{name}: {answer[:40]!r}')
        with open(folder + '/text', 'rb') as text:
            look = limits.looked(text.read())
        print(f'{name}, {steps // part} steps, {sessions // part} sessions: {size:.1f} MB, {took:.2f} s, {size / took:.1f} MB/s, '
              f'{took / look:.1f} times a look at each byte, {peak:.1f} MiB')
PYTHON

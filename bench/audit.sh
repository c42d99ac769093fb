#!/usr/bin/env bash
# Audits the logs of one session of a ring of 2, 4 and 16 roles, each of which has a log, with 1,000 to 100,000 events, and prints for each
# the events per second of a processor, the ratio to a look at each byte of the same logs, and the peak memory of the run. Logs ten times as long that take ten times
# as long, and a little more for the order by time, show that an event costs the same however many there are. Needs python3; no part of the gate.
set -u
here=$(cd "$(dirname "${BASH_SOURCE[0]}")/.." && pwd) || exit 1
folder=$(mktemp -d) || exit 1
trap 'rm -rf "$folder"' EXIT
"$here/sessiongraph" audit "$here/examples/honest.logs" >/dev/null || exit 1
# (the program itself, since ./sessiongraph first looks whether it is built)
python3 - "$here/crates/sg_cli/out/sg_cli" "$folder" "$here/bench" <<'PYTHON'
import os
import sys

program, folder, bench = sys.argv[1:]
sys.dont_write_bytecode = True
sys.path.insert(0, bench)
import limits


def lines(roles, events):
    """a ring: each role sends to the next one, which receives at the same time."""
    yield from ('graph {', 'graph ring;')
    yield from (f'role r{r};' for r in range(roles))
    yield 'var x: int by ' + ' '.join(f'r{r}' for r in range(roles)) + ';'
    yield from (f'node n{r}: r{r};' for r in range(roles))
    yield from (f'edge E{r}: n{r} -> n{(r + 1) % roles} writes x reads x;' for r in range(roles))
    yield from ('}', 'session s1')
    logs = [[] for _ in range(roles)]
    for step in range(events // 2):
        r = step % roles
        logs[r].append(f'sent E{r} {step + 1} x={step}')
        logs[(r + 1) % roles].append(f'received E{r} {step + 1} x={step}')
    for r in range(roles):
        yield f'log r{r}'
        yield from logs[r]


for roles in (2, 4, 16):
    for events in (1_000, 10_000, 100_000):
        path = os.path.join(folder, f'{roles}-{events}')
        with open(path, 'w') as out:
            out.write('\n'.join(lines(roles, events)) + '\n')
        answer, took, peak = limits.ran([program, 'audit', path])
        if not answer.startswith(b'audit s1 yes\n'):
            sys.exit(f'{roles} roles, {events} events: {answer[:40]!r}')
        with open(path, 'rb') as logs:
            look = limits.looked(logs.read())
        print(f'{roles} roles, {events} events: {took:.2f} s, {events / took:.0f} events/s, {took / look:.1f} times a look at each byte, {peak:.1f} MiB')
PYTHON

#!/usr/bin/env bash
# Plays sessions of `pair`, a question and its answer, between two processes that run `serve` over the loopback, driven over pipes: 200 at once and 50 times
# over, once with the lines of a round given ahead, and once line by line, each behind the answer to the one before; and beside that between two processes that
# run `run`. Prints how many ended in a second and what processor time a session takes in both processes; then times the hashes of a session alone, and
# prints their share of it. If a frame is lost, it is said. PROGRAM may name another program. Needs python3; no part of the gate.
set -eu
source "$(dirname "${BASH_SOURCE[0]}")/common.sh"
"$here/sessiongraph" check "$here/examples/pair.graph" >/dev/null || exit 1
# (the program itself, since ./sessiongraph first looks whether it is built)
program=${PROGRAM:-$here/crates/sg_cli/out/sg_cli}
for role in a b; do
    "$program" compile "$here/examples/pair.graph" "$role" >"$folder/$role.program"
done
session_hashes
python3 -B "$here/bench/run_sessions.py" "$program" "$folder" | sed 's/^/run: /'
python3 -B - "$program" "$folder" "$here/tools" <<'PYTHON'
import os
import subprocess
import sys
import threading
import time

program, folder, tools = sys.argv[1:]
sys.path.insert(0, tools)
from served import Served

AT_ONCE, ROUNDS = 200, 50
KEY = '1' * 64
for me, port, peer, other in (('a', 28491, 'b', 28492), ('b', 28492, 'a', 28491)):
    with open(f'{folder}/{me}.keys', 'w') as out:
        out.write(f'me = "{me}"\nlisten = "127.0.0.1:{port}"\n[[peer]]\nname = "{peer}"\naddr = "127.0.0.1:{other}"\nkey = "{KEY}"\n')


def serves(me):
    made = Served([program, 'serve', f'{folder}/{me}.keys', f'{folder}/{me}.program'])
    assert made.ask('turn s1') == 'unknown s1'
    return made


def seconds(process):
    """the processor time of a process so far."""
    with open(f'/proc/{process.pid}/schedstat') as it:
        return int(it.read().split()[0]) / 1e9


def ahead(made, lines, found):
    """gives all lines at once, and counts the answers that end so."""
    writer = threading.Thread(target=made.say, args=('\n'.join(lines),))
    writer.start()
    count = sum(made.answer().endswith(found) for _ in lines)
    writer.join()
    return count


def by_line(made, lines, found):
    return sum(made.ask(it).endswith(found) for it in lines)


for how, gives in (('lines ahead', ahead), ('line by line', by_line)):
    a, b = serves('a'), serves('b')
    sessions, took, begun_at = 0, 0.0, seconds(a.process) + seconds(b.process)
    of_b = 0
    for number in range(ROUNDS):
        begun, first = time.monotonic(), number * AT_ONCE + 1
        gives(a, [line for it in range(first, first + AT_ONCE) for line in ('start pair 1 a,b', f'act s{it} Request')], '')
        came = gives(b, ['recv 1000'] * AT_ONCE, ' received Request time 1')
        gives(b, [f'act s{it} Reply' for it in range(of_b + 1, of_b + came + 1)], '')
        of_b += came
        sessions += gives(a, ['recv 1000'] * came, ' received Reply time 2')
        took += time.monotonic() - begun
    used = seconds(a.process) + seconds(b.process) - begun_at
    lost = ROUNDS * AT_ONCE - sessions
    print(f'serve, {how}: {sessions} sessions of pair, {AT_ONCE} at once, {lost} of them lost frames: {sessions / took:.0f} a second, {used / sessions * 1e6:.0f} us of processor time each')
    if gives is ahead:
        with open(folder + '/per_session', 'w') as out:
            out.write(str(used / sessions))
    if a.quit() or b.quit():
        sys.exit('a process ended badly')
PYTHON
share_of_hashes "$(cat "$folder/per_session")"

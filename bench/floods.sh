#!/usr/bin/env bash
# Floods a principal with hostile deliveries, for each refusal that a replay can bring about: a million of each by default, in replays of at most
# 200,000 steps. Prints for each the deliveries, the replays, their seconds, and the peak memory of one. A replay keeps each step with the texts that
# it noted, which a node doesn't, and makes a report with a line for each: so a replay's memory grows with its steps. The last column says by how many
# bytes for each delivery, from a replay of half as many to a whole one. Each report is read: every delivery of the flood must be refused so, and the
# step that was awaited must be taken behind it. Needs python3; no part of the gate.
#
#     bench/floods.sh [DELIVERIES] [PROGRAM]
set -u
here=$(cd "$(dirname "${BASH_SOURCE[0]}")/.." && pwd) || exit 1
program=${2-$here/sessiongraph}
folder=$(mktemp -d) || exit 1
trap 'rm -rf "$folder"' EXIT
"$program" replay "$here/examples/shop-honest.schedule" >/dev/null || exit 1
python3 - "$program" "$folder" "${1-1000000}" "$here/bench" <<'PYTHON'
import subprocess
import sys

sys.dont_write_bytecode = True
sys.path.insert(0, sys.argv[4])
from hostile_deliveries import FLOODS

# A process of its own, since the peak of a child begins with that of the process that made it.
MEASURE = """import os, subprocess, sys, time
with open(sys.argv[3], 'wb') as out:
    begun = time.monotonic()
    child = subprocess.Popen([sys.argv[1], 'replay', sys.argv[2]], stdout=out)
    _, status, used = os.wait4(child.pid, 0)
    print(status, time.monotonic() - begun, used.ru_maxrss * 1024)
"""
program, folder, total = sys.argv[1], sys.argv[2], int(sys.argv[3])
STEPS = 200_000


def replay(head, before, hostile, refused, last, count):
    """The seconds and the peak of a replay with so many hostile deliveries."""
    with open(folder + '/flood', 'w') as out:
        out.write(head + '\n'.join(before + [hostile] * count + [last[0]]) + '\n')
    said = subprocess.run([sys.executable, '-c', MEASURE, program, folder + '/flood', folder + '/report'], stdout=subprocess.PIPE, text=True, check=True)
    status, took, peak = (float(word) for word in said.stdout.split())
    with open(folder + '/report') as report:
        lines = report.read().split('\n')
    if status != 0:
        sys.exit(f'{refused}: status {status}')
    wanted = [f'{len(before) + n} {refused}' for n in range(1, count + 1)] + [f'{len(before) + count + 1} {last[1]}']
    if lines[len(before):len(before) + count + 1] != wanted:
        sys.exit(f'{refused}: {next((have, want) for have, want in zip(lines[len(before):], wanted) if have != want)}')
    return took, peak


for name, head, before, hostile, refused, last in FLOODS:
    each = min(STEPS - len(before) - 1, total)
    left, took, peak, replays = total, 0.0, 0, 0
    while left > 0:
        seconds, memory = replay(head, before, hostile, refused, last, min(each, left))
        left, took, peak, replays = left - min(each, left), took + seconds, max(peak, memory), replays + 1
    _, half = replay(head, before, hostile, refused, last, each // 2)
    print(f'{name}: {total} deliveries, {replays} replays, {took:.1f} s, peak {peak / 2 ** 20:.1f} MiB, '
          f'{(peak - half) / (each - each // 2):.0f} bytes for each delivery of the second half', flush=True)
PYTHON

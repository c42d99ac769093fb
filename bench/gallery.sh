#!/usr/bin/env bash
# Checks each graph of the gallery 300 times, and prints its name and the shortest of these runs in milliseconds by the clock, the program's
# start in it, and the ratio to that start; the first line is the start alone, a run without arguments. Runs of different graphs take turns, so that a busy machine slows all
# alike. The program is the one that `./sessiongraph` has built, or the first argument's. Needs python3; no part of the gate.
set -eu
here=$(cd "$(dirname "${BASH_SOURCE[0]}")/.." && pwd)
program=${1:-$here/crates/sg_cli/out/sg_cli}
[ -x "$program" ] || { echo "gallery: $program is not built: run ./sessiongraph once" >&2; exit 1; }
python3 - "$program" "$here"/examples/gallery/*/*.graph <<'PYTHON'
import os
import subprocess
import sys
import time


def milliseconds(words):
    """The time of one run of the program."""
    begun = time.perf_counter()
    subprocess.run([sys.argv[1], *words], stdout=subprocess.DEVNULL, stderr=subprocess.DEVNULL, check=False)
    return (time.perf_counter() - begun) * 1000


runs = {'start': []}
for graph in sys.argv[2:]:
    folder, name = graph.split(os.sep)[-2:]
    if name == f'{folder}.graph':
        runs[folder] = ['check', graph]
shortest = dict.fromkeys(runs, float('inf'))
for _ in range(300):
    for name, words in runs.items():
        shortest[name] = min(shortest[name], milliseconds(words))
for name, best in shortest.items():
    print(f'{name}: {best:.2f} ms, {best / shortest["start"]:.2f} times the start')
PYTHON

#!/usr/bin/env bash
# Decides claims on a ring of two roles with two edges from each node, and prints for each the milliseconds of the whole command, with the reading of
# graph and claims, the least of fifteen runs: 256 claims with lists of up to 512 labels on the largest graph, once with a walk that breaks each and once
# with claims that hold; then half the claims, and as many claims with lists half as long on a graph of half the edges. The time grows in proportion to the
# text, and to claims times edges. Needs python3; no part of the gate.
set -u
here=$(cd "$(dirname "${BASH_SOURCE[0]}")/.." && pwd) || exit 1
folder=$(mktemp -d) || exit 1
trap 'rm -rf "$folder"' EXIT
"$here/sessiongraph" check "$here/examples/pair.graph" >/dev/null || exit 1
# (the program itself, since ./sessiongraph first looks whether it is built)
python3 - "${PROGRAM:-$here/crates/sg_cli/out/sg_cli}" "$folder" "$here/bench" <<'PYTHON'
import itertools
import os
import random
import string
import sys

program, folder, bench = sys.argv[1:]
sys.dont_write_bytecode = True
sys.path.insert(0, bench)
import limits

RUNS = 15
NAMES = [one + other for one, other in itertools.product(string.ascii_letters, string.ascii_letters + string.digits) if one + other != 'by']


def ring(labels):
    """two edges from each node to the next one."""
    nodes = len(labels) // 2
    yield from ('graph ring;', 'role a;', 'role b;')
    yield from (f'node n{n}: {"ab"[n % 2]};' for n in range(nodes))
    yield from (f'edge {label}: n{n // 2} -> n{(n // 2 + 1) % nodes};' for n, label in enumerate(labels))


def breaking(count, labels, chance):
    """claims about all labels, each of which the first step breaks."""
    for n in range(count):
        later, earlier, since = (chance.sample(labels, len(labels) * share // 100) for share in (100, 95, 66))
        yield f'claim c{n}: {" ".join(later)} needs {" ".join(earlier)} since {" ".join(since)};'


def holding(count, labels, chance):
    """claims about all labels but the first two, one of which each walk has before them: each node is gone through."""
    first, rest = labels[:2], labels[2:]
    for n in range(count):
        later, earlier, since = chance.sample(rest, len(rest)), first + chance.sample(rest, len(rest) * 80 // 100), chance.sample(rest, len(rest) * 80 // 100)
        yield f'claim c{n}: {" ".join(later)} needs {" ".join(earlier)} since {" ".join([label for label in since if label in earlier] or first)};'


def measure(edges, count, claims, word):
    chance = random.Random(1)
    labels = chance.sample(NAMES, edges)
    graph, text = os.path.join(folder, 'graph'), os.path.join(folder, 'claims')
    with open(graph, 'w') as out:
        out.write('\n'.join(ring(labels)) + '\n')
    with open(text, 'w') as out:
        out.write('\n'.join(['claims ring;', *claims(count, labels, chance)]) + '\n')
    least = None
    for _ in range(RUNS):
        answer, took, _ = limits.ran([program, 'claims', graph, text], end=13 if word == 'fails' else 0)
        lines = answer.decode().splitlines()
        if len(lines) != count or any(line.split()[2].rstrip(':') != word for line in lines):
            sys.exit(f'{edges} edges, {count} claims: {lines[:1]}')
        least = min(least or took, took)
    print(f'{edges} edges, {count} claims, {os.path.getsize(text) / 1024:.0f} KiB, each {word}: {1000 * least:.0f} ms')


for claims, word in ((breaking, 'fails'), (holding, 'holds')):
    for edges, count in ((512, 256), (512, 128), (256, 256)):
        measure(edges, count, claims, word)
PYTHON

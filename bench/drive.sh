#!/usr/bin/env bash
# Generates runs of two graphs with 250, 500, 1,000 and 2,000 sessions, and prints for each the frames that were sent, the seconds of a processor and
# the peak memory: of the shop of the examples, and of a chain of five roles with eight labels at each node and no variables. Beside each stand the
# seconds of its hashes alone, made right after it by the product's own `tag` and `graph_digest`, and the ratio of the two; behind it the same with
# `Key::tag`, for which the key is hashed once for all. Each is the least of fifteen runs, one after the other in turn. Which texts a run notes tells
# tools/model.py of the schedule that tools/drive_model.py makes. Then how the time of 2,000 sessions compares with eight times that of 250. Needs
# python3, in two runs: the peak memory of a child counts what it was before it became the program, so what runs the program has to be small. No part
# of the gate.
set -eu
source "$(dirname "${BASH_SOURCE[0]}")/common.sh"
hashes
hashes=$(built)
"$here/sessiongraph" check "$here/examples/shop.graph" >/dev/null || exit 1
python3 - "$folder" "$here/examples/shop.graph" "$here/tools" <<'PYTHON'
import collections
import sys

folder, shop, tools = sys.argv[1:]
sys.dont_write_bytecode = True
sys.path.insert(0, tools)
import drive_model
import model

chain = folder + '/chain.graph'
with open(chain, 'w') as out:
    roles = 'abcde'
    out.write('graph chain;' + ''.join(f'role {r};' for r in roles) + ''.join(f'node n{r}:{r};' for r in roles))
    out.write(''.join(f'edge L{a}{k}:n{a}->n{b};' for a, b in zip(roles, roles[1:]) for k in range(8)))


def noted(seed, sessions, graph):
    """How many tags and digests the run notes, by kind and length of text."""
    with open(graph) as text:
        text = text.read()
    run = model.run_of(drive_model.Drive(seed, sessions, drive_model.Graph(text)).schedule(text).encode())
    notes = [run.first, *run.notes]
    counts = collections.Counter(('t', len(text)) for note in notes for _, text in note.made + note.found)
    counts.update(('d', len(text) - len('sg-graph-1')) for note in notes for text in note.hashed)
    return counts


for name, graph in (('shop', shop), ('chain', chain)):
    for sessions in (250, 500, 1_000, 2_000):
        with open(f'{folder}/{name}-{sessions}', 'w') as out:
            out.writelines(f'{kind} {count} {length}\n' for (kind, length), count in noted(11, sessions, graph).items())
PYTHON
# (the program itself, since ./sessiongraph first looks whether it is built)
python3 - "${PROGRAM:-$here/crates/sg_cli/out/sg_cli}" "$folder" "$here/examples/shop.graph" "$hashes" <<'PYTHON'
import os
import subprocess
import sys

program, folder, shop, hashes = sys.argv[1:]


def timed(words):
    """What a program wrote, the seconds of a processor that it took, and its peak memory in MiB."""
    child = subprocess.Popen(words, stdout=subprocess.PIPE, text=True, cwd=folder)
    written = child.stdout.read()
    _, status, used = os.wait4(child.pid, 0)
    if status != 0:
        sys.exit(f'{words}: status {status}')
    return written, used.ru_utime + used.ru_stime, used.ru_maxrss / 1024


for name, graph in (('shop', shop), ('chain', folder + '/chain.graph')):
    took = {}
    for sessions in (250, 500, 1_000, 2_000):
        with open(f'{folder}/{name}-{sessions}') as counts:
            counts = counts.read()
        spent = {'r': [], 't': [], 'k': []}
        for _ in range(15):
            summary, seconds, peak = timed([program, 'drive', '11', str(sessions), graph])
            spent['r'].append(seconds)
            for how in 'tk':
                with open(folder + '/counts', 'w') as out:
                    out.write(counts.replace('t', how))
                spent[how].append(timed([hashes])[1])
        took[sessions], anew, ready = (min(spent[how]) for how in 'rtk')
        sent = dict(line.split() for line in summary.splitlines() if len(line.split()) == 2)['sent']
        print(f'{name}, {sessions} sessions: {sent} frames, {took[sessions]:.2f} s of processor, {peak:.1f} MiB, hashes {anew:.2f} s, '
              f'ratio {took[sessions] / anew:.2f}; by ready keys {ready:.2f} s, {took[sessions] / ready:.2f}')
    print(f'{name}, 2,000 sessions: {took[2_000] / took[250] / 8:.2f} times eight times what 250 take')
PYTHON

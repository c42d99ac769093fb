#!/usr/bin/env bash
# Replays generated schedules and prints for each the lines of its report, its seconds and the peak memory: two roles that ask and answer again, a
# shop with retries, many sessions of a shop side by side, and a frame that comes again and again and is refused. A schedule twice as long that
# takes twice the time shows that a step costs the same however many came before.
# Beside each stand the seconds of its hashes alone: as many tags and digests of texts as long as those that the run notes, made by the product's own
# `tag` and `graph_digest` in a program of its own, right after the replay; and the ratio of the two. Behind it the same with `Key::tag`, as the program
# makes its tags: the key is then hashed once for all. Each is the least of fifteen runs, one after the other in turn. Which texts a run notes tells
# tools/model.py of a short schedule of the same kind: each round after the first notes the same. PROGRAM may name another program. Needs python3; no
# part of the gate.
set -eu
source "$(dirname "${BASH_SOURCE[0]}")/common.sh"
hashes
hashes=$(built)
"$here/sessiongraph" replay "$here/examples/shop-honest.schedule" >/dev/null || exit 1
# (the program itself, since ./sessiongraph first looks whether it is built)
python3 - "${PROGRAM:-$here/crates/sg_cli/out/sg_cli}" "$folder" "$here/examples/shop.graph" "$hashes" "$here/tools" <<'PYTHON'
import collections
import os
import subprocess
import sys
import time

program, folder, graph, hashes, tools = sys.argv[1:]
sys.path.insert(0, tools)
import model
SHOP = 'graph {\n' + ''.join(line for line in open(graph) if line.strip() and not line.startswith('#')) + '}\n'
PAIR = 'edge Ask 0 1\nedge Answer 1 2\nedge Again 2 1\nhonest a\nhonest b\nkey a b ' + '1' * 64 + '\nsession s1 pair 1 a,b\n'
PARTNERS = ''.join(f'honest {name}\n' for name in ('alice', 'bob', 'carl')) + ''.join(
    f'key {one} {two} {digit * 64}\n' for one, two, digit in (('alice', 'bob', '1'), ('alice', 'carl', '2'), ('bob', 'carl', '3')))


def asked(rounds):
    """one session of two roles: each round is a question and its answer."""
    yield PAIR + 'start a s1'
    for n in range(rounds):
        yield f'act a s1 {"Again" if n else "Ask"}\ndeliver b f{2 * n + 1}\nact b s1 Answer\ndeliver a f{2 * n + 2}'


def retried(rounds, session='s1', first=0):
    """one session of a shop: each round is an order, and the price that the warehouse offers."""
    yield f'start alice {session}'
    for n in range(rounds):
        at = first + 4 * n
        yield f'act alice {session} {"Retry" if n else "Order"} q="tea"\ndeliver bob f{at + 1}\nact bob {session} Ask\ndeliver carl f{at + 2}'
        yield f'act carl {session} Offer price={n}\ndeliver bob f{at + 3}\nact bob {session} Pass\ndeliver alice f{at + 4}'


def one_shop(rounds):
    yield SHOP + PARTNERS + 'session s1 shop 7 alice,bob,carl'
    yield from retried(rounds)


def many_shops(sessions):
    yield SHOP + PARTNERS + '\n'.join(f'session s{n} shop {n} alice,bob,carl' for n in range(sessions))
    for n in range(sessions):
        yield from retried(2, f's{n}', 8 * n)


def refused(steps):
    """the first frame comes again and again."""
    yield PAIR + 'start a s1\nact a s1 Ask'
    yield from ('deliver b f1' for _ in range(steps - 2))


def noted(made, size):
    """how many tags and digests a run of this size notes, by kind and length of text."""
    run = model.run_of(('\n'.join(made(size)) + '\n').encode())
    notes = [run.first, *run.notes]
    counts = collections.Counter(('t', len(text)) for note in notes for _, text in note.made + note.found)
    counts.update(('d', len(text) - len('sg-graph-1')) for note in notes for text in note.hashed)
    return counts


def grown(made, size):
    """the same of a size that the model is too slow for: each round after the third notes as much as the one before."""
    three, four = noted(made, 3), noted(made, 4)
    return {key: four[key] + (size - 4) * (four[key] - three[key]) for key in four}


def timed(words):
    """the seconds and the use of a program's run, and the lines that it wrote."""
    begun = time.monotonic()
    child = subprocess.Popen(words, stdout=subprocess.PIPE, cwd=folder)
    lines = child.stdout.read().count(b'\n')
    _, status, used = os.wait4(child.pid, 0)
    if status != 0:
        sys.exit(f'{words}: status {status}')
    return time.monotonic() - begun, used, lines


for name, made, sizes in (('asked again', asked, (24_500, 49_000)), ('shop, retried', one_shop, (10_000, 20_000)),
                          ('shops side by side', many_shops, (1_000, 2_000)), ('repeated frames', refused, (100_000, 200_000))):
    for size in sizes:
        with open(folder + '/text', 'w') as out:
            out.write('\n'.join(made(size)) + '\n')
        counts = grown(made, size)
        spent = {'r': [], 't': [], 'k': []}
        for _ in range(15):
            took, used, lines = timed([program, 'replay', folder + '/text'])
            spent['r'].append(used.ru_utime + used.ru_stime)
            for how in 'tk':
                with open(folder + '/counts', 'w') as out:
                    out.writelines(f'{how if kind == "t" else kind} {count} {length}\n' for (kind, length), count in counts.items())
                alone = timed([hashes])[1]
                spent[how].append(alone.ru_utime + alone.ru_stime)
        replayed, anew, ready = (min(spent[how]) for how in 'rtk')
        print(f'{name}, {size}: {lines} lines, {took:.2f} s, {replayed:.2f} s of processor, {used.ru_maxrss / 1024:.1f} MiB, hashes {anew:.2f} s, '
              f'ratio {replayed / anew:.2f}; by ready keys {ready:.2f} s, {replayed / ready:.2f}')
PYTHON

#!/usr/bin/env bash
# Reads a graph text of 4 MiB, mostly comments before the statements of 16 roles, 32 variables, 256 nodes and 512 edges, 50 times, and the
# statements alone 2,000 times, and prints the throughput, and the ratio to a look at each byte of the same text. The program is made in a
# folder of its own, over this repository's crates. Needs python3; no part of the gate.
set -eu
source "$(dirname "${BASH_SOURCE[0]}")/common.sh"
program texts sg_graph sg_parse
cat >"$bench/src/main.rt" <<'RATTLE'
//! One text, read again and again.
#![tactic(auto)]

use sg_parse::parse_graph;
use std::alloc::Global;
use std::{fs, io};

fn main(rt: HostRuntime) -> Result<(), io::Error> {
    let bytes = fs::read(&rt, "text")?;
    let many = fs::read(&rt, "mode")?.is_empty();
    let count = if many { 2_000u16 } else { 50 };
    let mut right = 0u32;
    for _ in 0..count {
        if passes(rt.alloc(), bytes.as_slice()) {
            right = right.wrapping_add(1);
        }
    }
    println!(rt; "{right}")
}

fn passes(alloc: Global, bytes: &[u8]) -> bool {
    match parse_graph(alloc, bytes) {
        Ok(graph) => graph.edges() == 512,
        Err(_) => false,
    }
}
RATTLE
mkdir "$bench/data"
echo 2000 >"$bench/stdout"
python3 - "$bench/data" "$folder" <<'PYTHON'
import sys

statements = ['graph g;']
statements += [f'role r{i};' for i in range(16)]
statements += [f'var v{i}: int by r{i % 16};' for i in range(32)]
statements += [f'node n{i}: r{i % 16};' for i in range(256)]
statements += [f'edge E{i}: n{i % 256} -> n{(i + 1) % 256} writes v{i % 32} reads v{(i + 1) % 32};' for i in range(512)]
size = sum(len(s) + 1 for s in statements)
each = (4 * 1024 * 1024 - size) // len(statements)
line = '# ' + 'a comment of some words, ' * 3 + '\n'
comment = (line * (each // len(line) + 1))[:each - 1] + '\n'
assert comment.endswith('\n')
whole = ''.join(comment + s + '\n' for s in statements)
assert len(whole) <= 4 * 1024 * 1024
open(sys.argv[2] + '/commented', 'w').write(whole)
open(sys.argv[2] + '/statements', 'w').write('\n'.join(statements) + '\n')
open(sys.argv[1] + '/text', 'w').write('\n'.join(statements) + '\n')
open(sys.argv[1] + '/mode', 'w').close()
PYTHON
made=$(built)
python3 - "$made" "$folder" "$here/bench" <<'PYTHON'
import shutil
import sys

program, folder, bench = sys.argv[1:]
sys.dont_write_bytecode = True
sys.path.insert(0, bench)
import limits


def tell(name, text, mode, count):
    shutil.copy(f'{folder}/{text}', f'{folder}/text')
    with open(folder + '/mode', 'w') as it:
        it.write(mode)
    said, took, _ = limits.ran([program], folder)
    assert said == b"%d\n" % count, said
    with open(folder + '/text', 'rb') as it:
        data = it.read()
    print(f'{name}: {count * len(data) / 1e6 / took:.0f} MB/s, {took / count / limits.looked(data):.1f} times a look at each byte')


tell('mostly comments', 'commented', 'few', 50)
tell('statements alone', 'statements', '', 2000)
PYTHON

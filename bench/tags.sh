#!/usr/bin/env bash
# Times a million tags of 136 bytes under a key of 32, as many by Python's hmac.digest, and prints the seconds of a processor of both, and their ratio. Then it prints what a program
# written by hand would pay for the hashes of some sessions, both sides of each message together: the compressions of SHA-256 that their tags and
# digests take, which tools/model.py tells, each as dear as one of the six of such a tag. The program is made in a folder of its own, over this
# repository's crates. Needs python3; no part of the gate.
set -eu
source "$(dirname "${BASH_SOURCE[0]}")/common.sh"
program million_tags sg_base sg_crypt
cat >"$bench/src/main.rt" <<'RATTLE'
//! A million tags.
#![tactic(auto)]

use sg_crypt::tag;
use std::io;

fn main(rt: HostRuntime) -> Result<(), io::Error> {
    let mut text = [0u8; 136];
    for _ in 0..1_000_000 {
        let tag = tag(&[0x11; 32], b"sg-frame-1", &text[10..]);
        text[10] = tag.0[0];
    }
    println!(rt; "{}", text[10])
}
RATTLE
python3 - >"$bench/stdout" <<'PYTHON'
import hmac

text, key = bytearray(136), b'\x11' * 32
text[:10] = b'sg-frame-1'
for _ in range(1_000_000):
    text[10] = hmac.digest(key, text, 'sha256')[0]
print(text[10])
PYTHON
made=$(built)
python3 - "$made" "$here" <<'PYTHON'
import hmac
import pathlib
import sys
import time

top = pathlib.Path(sys.argv[2])
sys.dont_write_bytecode = True
sys.path.insert(0, str(top / 'bench'))
import limits

said, ours, _ = limits.ran([sys.argv[1]])
begun = time.process_time()
text, key = bytearray(136), b'\x11' * 32
text[:10] = b'sg-frame-1'
for _ in range(1_000_000):
    text[10] = hmac.digest(key, text, 'sha256')[0]
theirs = time.process_time() - begun
if text[10] != int(said):
    sys.exit('the tags differ')
# Of each of the two hashes the block of the key, and the blocks of what is hashed behind it.
compression = ours / 1e6 / (1 + limits.blocks(136) + 1 + limits.blocks(32))
print(f'a million tags of 136 bytes: {ours:.2f} s, by Python {theirs:.2f} s, ratio {ours / theirs:.2f}; a compression takes {compression * 1e9:.0f} ns')
for path in [top / 'examples/request-reply.schedule', top / 'examples/shop-honest.schedule', *sorted((top / 'examples/gallery').glob('*/honest.schedule'))]:
    steps = limits.of_schedule(path)
    messages = sum(words.startswith('act ') for words, *_ in steps)
    tags, digests, compressions = (sum(step[place] for step in steps) for place in (1, 2, 3))
    name = path.parent.name if path.stem == 'honest' else path.stem
    print(f'by hand, {name}: {messages} messages, {tags} tags, {digests} digests, {compressions} compressions, '
          f'{compressions * compression * 1e6 / messages:.2f} microseconds for each message')
PYTHON

#!/usr/bin/env bash
# Reads and spells the longest frame that a step makes, 15 steps and 32 openings in 57,028 bytes, 20,000 times each, and prints the
# throughput, and the ratio to copying the same bytes in memory. The program is made in a folder of its own, over this repository's crates.
# Needs python3; no part of the gate.
set -eu
source "$(dirname "${BASH_SOURCE[0]}")/common.sh"
program frames sg_base sg_frame
cat >"$bench/src/main.rt" <<'RATTLE'
//! One frame, read and spelled again and again.
#![tactic(auto)]

use sg_frame::{decode, encode};
use std::alloc::Global;
use std::{fs, io};

fn main(rt: HostRuntime) -> Result<(), io::Error> {
    let bytes = fs::read(&rt, "frame")?;
    let reads_alone = fs::read(&rt, "mode")?.is_empty();
    let mut right = 0u32;
    for _ in 0..20_000 {
        if passes(rt.alloc(), bytes.as_slice(), reads_alone) {
            right = right.wrapping_add(1);
        }
    }
    println!(rt; "{right}")
}

fn passes(alloc: Global, bytes: &[u8], reads_alone: bool) -> bool {
    match decode(alloc, bytes) {
        Ok(frame) => reads_alone || matches!(encode(alloc, &frame), Ok(again) if again.len() == bytes.len()),
        Err(_) => false,
    }
}
RATTLE
mkdir "$bench/data"
echo 20000 >"$bench/stdout"
python3 - "$bench/data" <<'PYTHON'
import sys

item = bytes([0, 0, 0, 0, 0, 0, 1, 32]) + b''.join(bytes([v]) + bytes(32) for v in range(32))
item += bytes([14]) + b''.join(bytes([r]) + bytes(32) for r in range(14))
name = bytes([32]) + b'a' * 32
opening = bytes(16) + bytes([1, 0, 0, 4, 0]) + b'x' * 1024
frame = b'SGF1' + bytes([0]) + bytes(32) + bytes([0, 1]) + bytes(48) + bytes([16]) + name * 16 + bytes([0, 15]) + item * 15
frame += bytes([32]) + b''.join(bytes([v]) + opening for v in range(32)) + bytes(32)
assert len(frame) == 57028
open(sys.argv[1] + '/frame', 'wb').write(frame)
open(sys.argv[1] + '/mode', 'wb').close()
PYTHON
made=$(built)
python3 - "$made" "$bench/data" "$here/bench" <<'PYTHON'
import sys

program, folder, bench = sys.argv[1:]
sys.dont_write_bytecode = True
sys.path.insert(0, bench)
import limits


def seconds(mode):
    with open(folder + '/mode', 'w') as it:
        it.write(mode)
    said, spent, _ = limits.ran([program], folder)
    assert said == b"20000\n", said
    return spent


read = seconds('')
both = seconds('and spells')
size = 20000 * 57028 / 1e6
with open(folder + '/frame', 'rb') as it:
    copy = 20000 * limits.copied(it.read())
print(f'reading: {size / read:.0f} MB/s, {read / copy:.1f} times a copy of the bytes')
print(f'spelling: {size / (both - read):.0f} MB/s, {(both - read) / copy:.1f} times a copy of the bytes')
PYTHON

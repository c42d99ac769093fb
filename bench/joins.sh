#!/usr/bin/env bash
# Times 65,536 claims, and a million look-ups in a cache of 1,024 joins and in one of 65,536; the same with a HashSet in Rust; and prints
# both and their ratio. Look-ups that take the same time in both caches show that none goes through the joins. The programs
# are made in a folder of their own, over this repository's crates. Needs rustc; no part of the gate.
set -eu
source "$(dirname "${BASH_SOURCE[0]}")/common.sh"
program many_joins sg_base sg_cache
cat >"$bench/src/main.rt" <<'RATTLE'
//! Claims and look-ups of joins.
#![tactic(auto)]

use sg_base::{Role, Sid};
use sg_cache::Cache;
use std::time::Instant;
use std::{fs, io};

fn sid_of(number: u32) -> Sid {
    let mut bytes = [0u8; 32];
    bytes[..4].copy_from_slice(number.wrapping_mul(2_654_435_761).to_be_bytes().as_slice());
    bytes[28..].copy_from_slice(number.to_be_bytes().as_slice());
    Sid(bytes)
}

fn claim_all(cache: &mut Cache, from: u32, to: u32) -> u32 {
    let mut claimed = 0u32;
    for number in from..to {
        if cache.len() < 65_536 {
            let _ = cache.reserve();
        }
        if let Ok(ticket) = cache.claim(sid_of(number), Role(0)) {
            ticket.give_up();
            claimed = claimed.wrapping_add(1);
        }
    }
    claimed
}

fn look_up(cache: &Cache, mask: u32) -> u32 {
    let mut found = 0u32;
    for number in 0..1_000_000u32 {
        if cache.has(&sid_of(number & mask), Role(0)) {
            found = found.wrapping_add(1);
        }
    }
    found
}

// It measures where the file `go` has a byte.
fn main(rt: HostRuntime) -> io::Result<()> {
    if fs::read(&rt, "go")?.is_empty() {
        return Ok(());
    }
    let mut cache = Cache::new(rt.alloc());
    let start = Instant::now(&rt)?;
    let few = claim_all(&mut cache, 0, 1024);
    let claims = start.elapsed(&rt)?;
    let start = Instant::now(&rt)?;
    let in_few = look_up(&cache, 2047);
    let few_time = start.elapsed(&rt)?;
    let start = Instant::now(&rt)?;
    let many = claim_all(&mut cache, 1024, 65_536);
    let more_claims = start.elapsed(&rt)?;
    let start = Instant::now(&rt)?;
    let in_many = look_up(&cache, 131_071);
    let many_time = start.elapsed(&rt)?;
    println!(rt; "{few} {many} {in_few} {in_many}")?;
    println!(rt; "{} {} {} {}", claims.as_micros(), more_claims.as_micros(), few_time.as_micros(), many_time.as_micros())
}
RATTLE
cat >"$folder/many_joins.rs" <<'RUST'
use std::collections::HashSet;
use std::time::Instant;

fn sid_of(number: u32) -> [u8; 32] {
    let mut bytes = [0u8; 32];
    bytes[..4].copy_from_slice(&number.wrapping_mul(2_654_435_761).to_be_bytes());
    bytes[28..].copy_from_slice(&number.to_be_bytes());
    bytes
}

fn claim_all(cache: &mut HashSet<([u8; 32], u8)>, from: u32, to: u32) -> u32 {
    (from..to).filter(|&number| cache.len() < 65_536 && cache.insert((sid_of(number), 0))).count() as u32
}

fn look_up(cache: &HashSet<([u8; 32], u8)>, mask: u32) -> u32 {
    (0..1_000_000u32).filter(|&number| cache.contains(&(sid_of(number & mask), 0))).count() as u32
}

fn main() {
    let mut cache = HashSet::new();
    let start = Instant::now();
    let few = claim_all(&mut cache, 0, 1024);
    let claims = start.elapsed();
    let start = Instant::now();
    let in_few = look_up(&cache, 2047);
    let few_time = start.elapsed();
    let start = Instant::now();
    let many = claim_all(&mut cache, 1024, 65_536);
    let more_claims = start.elapsed();
    let start = Instant::now();
    let in_many = look_up(&cache, 131_071);
    let many_time = start.elapsed();
    println!("{few} {many} {in_few} {in_many}");
    println!("{} {} {} {}", claims.as_micros(), more_claims.as_micros(), few_time.as_micros(), many_time.as_micros());
}
RUST
mkdir "$bench/data"
: >"$bench/data/go"
made=$(built)
echo >"$folder/go"
rustc -O -o "$folder/many_joins" "$folder/many_joins.rs"
(cd "$folder" && "$made") >"$folder/ours"
"$folder/many_joins" >"$folder/theirs"
if [ "$(head -n 1 "$folder/ours")" != "$(head -n 1 "$folder/theirs")" ]; then
    echo 'the answers differ' >&2
    exit 1
fi
read -r few more in_few in_many < <(tail -n 1 "$folder/ours")
read -r rust_few rust_more rust_in_few rust_in_many < <(tail -n 1 "$folder/theirs")
told() { awk -v what="$1" -v ours="$2" -v theirs="$3" 'BEGIN { printf "%s: %d microseconds, a HashSet %d, ratio %.2f\n", what, ours, theirs, ours / theirs }'; }
told '65,536 claims' "$((few + more))" "$((rust_few + rust_more))"
told 'a million look-ups in 1,024 joins' "$in_few" "$rust_in_few"
told 'a million look-ups in 65,536 joins' "$in_many" "$rust_in_many"

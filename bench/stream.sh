#!/usr/bin/env bash
# Takes 1,000 messages of 57,032 bytes through a reader, and through a link over connections that have their messages side by side, in pieces of one byte
# and of 64 KiB, and prints the throughput, and the ratio to copying the same bytes in memory. The pieces of the connections come in turn. The program
# is made in a folder of its own, over this repository's crates. Needs python3; no part of the gate.
set -eu
source "$(dirname "${BASH_SOURCE[0]}")/common.sh"
program stream sg_base sg_stream
cat >"$bench/src/main.rt" <<'RATTLE'
//! The frames of messages that come in pieces of one size.
#![tactic(auto)]

ghost use Rattle.std.specs.Prelude.{◌<◌};

mod turns;

use crate::turns::Turns;
use sg_base::{Link, LinkFault};
use sg_stream::{StreamLink, StreamReader};
use std::alloc::Global;
use std::{fs, io};

/// As many messages as are read.
const MESSAGES: u32 = 1_000;

fn main(rt: HostRuntime) -> Result<(), io::Error> {
    let alloc = rt.alloc();
    let message = fs::read(&rt, "message")?;
    let mode = fs::read(&rt, "mode")?;
    let size = if mode.as_slice().first() == Some(&b'1') { 1 } else { 65_536 };
    let count = match mode.as_slice().get(1) {
        Some(b'r') => frames_of_a_reader(alloc, message.as_slice(), size),
        Some(b'w') => frames_of_a_link(alloc, message, size, 255),
        _ => frames_of_a_link(alloc, message, size, 0),
    };
    println!(rt; "{count}")
}

// How many frames a reader gives of the message, fed again and again.
fn frames_of_a_reader(alloc: Global, message: &[u8], size: usize) -> u32
    requires { 0 < size }
{
    let mut reader = StreamReader::new(alloc);
    let mut count = 0u32;
    for _ in 0..MESSAGES {
        for piece in message.chunks(size) {
            if reader.feed(piece).is_err() {
                return 0;
            }
            if matches!(reader.next(alloc), Ok(Some(_))) {
                count = count.wrapping_add(1);
            }
        }
    }
    count
}

// How many frames a link gives, over connections with the numbers up to this one that have the message again and again.
fn frames_of_a_link(alloc: Global, message: Vec<u8>, size: usize, last: u8) -> u32 {
    let Ok(mut link) = StreamLink::new(alloc, Turns::new(message, size, last)) else {
        return 0;
    };
    let mut count = 0u32;
    for _ in 0..u32::MAX {
        match link.recv(alloc) {
            Ok(Some(_)) => count = count.wrapping_add(1),
            // 1,000,000 pieces had no whole message.
            Err(LinkFault::Failed) => {}
            _ => return count,
        }
        if count == MESSAGES {
            return count;
        }
    }
    count
}
RATTLE
cat >"$bench/src/turns.rt" <<'RATTLE'
//! Connections that have one message, again and again.

use sg_base::{Addr, Failed, LinkFault};
use sg_stream::Conns;
use std::alloc::Global;

/// Connections with the numbers up to the last one, each with the message again and again, in pieces of one size. Each gives a piece in its turn.
#[derive(Drop)]
pub struct Turns {
    message: Vec<u8>,
    size: usize,
    last: u8,
    conn: u8,
    at: usize,
}

impl Turns {
    /// No piece was given.
    pub fn new(message: Vec<u8>, size: usize, last: u8) -> Turns {
        Turns {
            message,
            size,
            last,
            conn: 0,
            at: 0,
        }
    }

    // Goes on to the next connection, and, past the last one, to the place behind the piece.
    fn go_on(&mut self, behind: usize) {
        if self.conn < self.last {
            self.conn += 1;
        } else {
            self.conn = 0;
            self.at = if behind < self.message.len() { behind } else { 0 };
        }
    }
}

impl Conns for Turns {
    ghost use Rattle.std.specs.Prelude.{None};

    ghost faults = { λ _. 0 };

    ghost held = { λ _. None };

    fn open(&mut self, at: Addr) -> Result<(), Failed> {
        let _ = at;
        Ok(())
    }

    fn take(&mut self, alloc: Global) -> Result<Option<(u8, Vec<u8>)>, LinkFault> {
        let conn = self.conn;
        let bytes = self.message.as_slice();
        if self.at >= bytes.len() {
            return Ok(None);
        }
        let rest = bytes.len() - self.at;
        let size = if self.size < rest { self.size } else { rest };
        let behind = self.at + size;
        let mut piece = Vec::new(alloc);
        if piece.extend_from_slice(&bytes[self.at..behind]).is_err() {
            return Err(LinkFault::OutOfMemory);
        }
        self.go_on(behind);
        Ok(Some((conn, piece)))
    }

    fn close(&mut self, conn: u8) {
        let _ = conn;
    }

    fn connect(&mut self, to: Addr) -> Result<u8, Failed> {
        let _ = to;
        Ok(255)
    }

    fn give(&mut self, conn: u8, piece: &[u8]) -> Result<usize, Failed> {
        let _ = conn;
        Ok(piece.len())
    }
}
RATTLE
mkdir "$bench/data"
echo 1000 >"$bench/stdout"
python3 - "$bench/data" <<'PYTHON'
import sys

frame = b'x' * 57028
open(sys.argv[1] + '/message', 'wb').write(len(frame).to_bytes(4, 'big') + frame)
open(sys.argv[1] + '/mode', 'wb').write(b'kr')
PYTHON
made=$(built)
python3 - "$made" "$bench/data" "$here/bench" <<'PYTHON'
import sys

program, folder, bench = sys.argv[1:]
sys.dont_write_bytecode = True
sys.path.insert(0, bench)
import limits

with open(folder + '/message', 'rb') as it:
    message = it.read()
size = 1000 * len(message) / 1e6
copy = 1000 * limits.copied(message)
for way, what in (('r', 'a reader'), ('l', 'a link over one connection'), ('w', 'a link over 256 connections')):
    for pieces, mode in (('one byte', '1'), ('64 KiB', 'k')):
        with open(folder + '/mode', 'w') as it:
            it.write(mode + way)
        said, spent, _ = limits.ran([program], folder)
        assert said == b"1000\n", said
        print(f'{what}, pieces of {pieces}: {size / spent:.0f} MB/s, {spent / copy:.1f} times a copy of the bytes')
PYTHON

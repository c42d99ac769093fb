# What the benches share. A bench sources this file, after `set -eu`, and then has `here`, the top of the repository, and `folder`, which goes when
# the bench ends. Its program is a crate of its own in that folder, beside copies of the crates that it stands on.
here=$(cd "$(dirname "${BASH_SOURCE[0]}")/.." && pwd)
source "$here/tools/allocator"
folder=$(mktemp -d)
trap 'rm -rf "$folder"' EXIT

# lines_of CRATE..: the lines of crates.txt for these crates and for all that they stand on, in the order of the file.
lines_of() {
    awk -v wanted="$*" '
        /^#/ || !/:/ { next }
        { name = $1; sub(/:$/, "", name); order[++count] = name; line[name] = $0 }
        END {
            split(wanted, first, " ")
            for (at in first) needed[first[at]] = 1
            for (at = count; at > 0; at--) if (order[at] in needed) {
                parts = split(line[order[at]], words, " ")
                for (part = 2; part <= parts; part++) needed[words[part]] = 1
            }
            for (at = 1; at <= count; at++) if (order[at] in needed) print line[order[at]]
        }
    ' "$here/crates.txt"
}

# program NAME LIBRARY..: makes the folder of a program of this name over these libraries. Its files are written into `$bench`.
program() {
    local name=$1 crate
    shift
    bench=$folder/crates/$name
    mkdir -p "$bench/src"
    lines_of "$@" >"$folder/crates.txt"
    for crate in $(sed 's/:.*//' "$folder/crates.txt"); do
        tar -C "$here/crates" --exclude=out --exclude=must-fail -cf - "$crate" | tar -C "$folder/crates" -xf -
    done
    echo "$name: $*" >>"$folder/crates.txt"
    cp "$here/HANDLES" "$folder/HANDLES"
}

# built: proves and builds the program, and names it. What a run of `rt ci` on this machine proved of the same files is taken, so after the gate only
# the program itself is proved. `rt ci` runs it without arguments over the files in `data`, and it must write what the file `stdout` has, or nothing.
built() {
    local name
    name=$(basename "$bench")
    (cd "$bench" && rt fmt && cd "$folder" && rt ci) >"$folder/log" 2>&1 </dev/null || { cat "$folder/log" >&2; return 1; }
    printf '%s\n' "$bench/out/$name"
}

# hashes: makes a program that makes as many tags and digests as the file `counts` where it runs says, by the product's own `tag` and `graph_digest`: a
# line for each kind and length, `t` or `d`, how many, and the length of each text. `tag` hashes the key with each text; if a line begins with `k`,
# `Key::tag` makes the tags, which has hashed it before. `built` proves and builds it.
hashes() {
    program hashes sg_base sg_crypt
    cat >"$bench/src/main.rt" <<'RATTLE'
//! Makes as many tags and digests as the file `counts` says, of texts of the lengths that it says.
#![tactic(auto)]

use sg_base::read_number;
use sg_crypt::{Key, graph_digest, tag};
use std::{fs, io};

fn main(rt: HostRuntime) -> Result<(), io::Error> {
    let bytes = fs::read(&rt, "counts")?;
    let key = Key::new([0x11; 32]);
    let mut text = [0u8; 4096];
    for line in bytes.as_slice().split(|byte| *byte == b'\n') {
        hash(&key, line, &mut text);
    }
    Ok(())
}

// A line: `t`, `k` or `d`, a number of tags or digests, and the length of each text.
fn hash(key: &Key, line: &[u8], text: &mut [u8; 4096]) {
    let mut words = line.split(|byte| *byte == b' ');
    let (Some(kind), Some(count), Some(length)) = (words.next(), words.next(), words.next()) else {
        return;
    };
    let (Some(count), Some(length)) = (read_number(count, 100_000_000), read_number(length, 4096)) else {
        return;
    };
    let text = &mut text[..length as usize];
    if kind == b"t".as_slice() {
        tags(key, count, text);
    } else if kind == b"k".as_slice() {
        ready_tags(key, count, text);
    } else {
        digests(count, text);
    }
}

fn tags(key: &Key, count: u64, text: &mut [u8]) {
    for _ in 0..count {
        let made = tag(key.bytes(), b"", text);
        if let Some(first) = text.first_mut() {
            *first = made.0[0];
        }
    }
}

fn ready_tags(key: &Key, count: u64, text: &mut [u8]) {
    for _ in 0..count {
        let made = key.tag(b"", text);
        if let Some(first) = text.first_mut() {
            *first = made.0[0];
        }
    }
}

fn digests(count: u64, text: &mut [u8]) {
    for _ in 0..count {
        let digest = graph_digest(text);
        if let Some(first) = text.first_mut() {
            *first = digest[0];
        }
    }
}
RATTLE
    mkdir "$bench/data"
    : >"$bench/data/counts"
}

# session_hashes: makes a program of the hashes of sessions of two roles, which `share_of_hashes` runs.
session_hashes() {
    program session_hashes sg_base sg_crypt
    cat >"$bench/src/main.rt" <<'RATTLE'
//! The hashes of 200,000 sessions of two roles: an identifier at each, and the tag of each of two frames, made and compared.
#![tactic(auto)]

use sg_base::Name;
use sg_crypt::{Cast, Key, session_id};
use std::io;

fn main(rt: HostRuntime) -> Result<(), io::Error> {
    let key = Key::new([0x11; 32]);
    let request = [7u8; 104];
    let reply = [7u8; 51];
    let mut nonce = [0u8; 16];
    if let (Some(a), Some(b)) = (Name::new(b"a"), Name::new(b"b")) {
        for _ in 0..200_000 {
            if let Some(cast) = Cast::new(1, [3; 32], nonce, &[a, b]) {
                nonce[0] = session_id(&cast).0[0];
                nonce[1] = session_id(&cast).0[1];
            }
            for text in [request.as_slice(), reply.as_slice()] {
                let tag = key.tag(b"sg-frame-1", text);
                nonce[2] = u8::from(key.cut_matches(1, b"sg-frame-1", text, &tag));
            }
        }
    }
    println!(rt; "{}", nonce[2])
}
RATTLE
    echo 1 >"$bench/stdout"
}

# share_of_hashes SECONDS: prints what the hashes of a session take, and their share of these seconds of a processor for a whole one. `session_hashes` made
# the program last.
share_of_hashes() {
    local hashes
    hashes=$(built)
    python3 - "$1" "$hashes" <<'PYTHON'
import resource
import subprocess
import sys

whole, hashes = float(sys.argv[1]), sys.argv[2]
subprocess.run([hashes], stdout=subprocess.DEVNULL, check=True)
used = resource.getrusage(resource.RUSAGE_CHILDREN)
alone = (used.ru_utime + used.ru_stime) / 200_000
print(f'the hashes of a session: {alone * 1e6:.1f} us of processor time, {100 * alone / whole:.0f} % of it')
PYTHON
}

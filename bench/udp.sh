#!/usr/bin/env bash
# Plays sessions of `pair` between two processes over the loopback, 200 at once and 50 times over, and prints how many ended in a second and what
# processor time a session takes in both processes; then times the hashes of a session alone, two identifiers and four tags, and prints their share.
# 200 frames of 136 bytes fit the buffer that a socket has; if one is lost nevertheless, it is said. The second program is made in a folder of its
# own, over this repository's crates. PROGRAM may name another program. Needs python3; no part of the gate.
set -eu
source "$(dirname "${BASH_SOURCE[0]}")/common.sh"
"$here/sessiongraph" check "$here/examples/pair.graph" >/dev/null || exit 1
# (the program itself, since ./sessiongraph first looks whether it is built)
program=${PROGRAM:-$here/crates/sg_cli/out/sg_cli}
for role in a b; do
    "$program" compile "$here/examples/pair.graph" "$role" >"$folder/$role.program"
done
session_hashes
python3 -B "$here/bench/run_sessions.py" "$program" "$folder"
share_of_hashes "$(cat "$folder/per_session")"

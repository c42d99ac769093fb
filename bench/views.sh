#!/usr/bin/env bash
# Lists the views of a role of a graph near both limits, 62,931 open views and 4,096 views, and prints the seconds and the greatest
# memory. A sender's step is overtaken along the way, so that over a million edges are followed. The program is made in a folder of its
# own, over this repository's crates. Needs python3; no part of the gate.
set -eu
source "$(dirname "${BASH_SOURCE[0]}")/common.sh"
program listing sg_base sg_graph sg_model sg_protocol sg_views sg_vis
cat >"$bench/src/main.rt" <<'RATTLE'
//! A chain of seven nodes, with so many edges from each to the next. The first three senders send again.
#![tactic(auto)]

ghost use Rattle.std.specs.Prelude.{◌≡◌, ◌<◌, false, length, IfSome};
ghost use Rattle.sg_model.specs.Lists.{has_text};
ghost use Rattle.sg_model.specs.Names.{reserved};

use sg_base::{Name, NodeId, Role, VarSet};
use sg_graph::Graph;
use sg_views::views;
use std::alloc::Global;
use std::io;

fn main(rt: HostRuntime) -> Result<(), io::Error> {
    match count(rt.alloc()) {
        Some(number) => println!(rt; "{number}"),
        None => println!(rt; "none"),
    }
}

fn count(alloc: Global) -> Option<u16> {
    let graph = chain(alloc)?;
    match views(alloc, &graph, Role(3)) {
        Ok(table) => Some(table.len()),
        Err(_) => None,
    }
}

fn chain(alloc: Global) -> Option<Graph> {
    let mut graph = Graph::new(alloc, named(0)?);
    for number in 0..4 {
        add_role(&mut graph, number)?;
    }
    for role in [0u8, 1, 2, 0, 1, 2, 3] {
        add_node(&mut graph, role)?;
    }
    for (from, edges) in [(0u16, 33u16), (1, 33), (2, 33), (3, 16), (4, 16), (5, 16)] {
        for _ in 0..edges {
            add_edge(&mut graph, from)?;
        }
    }
    Some(graph)
}

fn add_role(graph: &mut Graph, number: u16) -> Option<()> {
    let name = named(number)?;
    match graph.add_role(name) {
        Ok(_) => Some(()),
        Err(_) => None,
    }
}

fn add_node(graph: &mut Graph, role: u8) -> Option<()> {
    let name = named(graph.nodes())?;
    if role >= graph.roles() {
        return None;
    }
    match graph.add_node(name, Role(role)) {
        Ok(_) => Some(()),
        Err(_) => None,
    }
}

fn add_edge(graph: &mut Graph, from: u16) -> Option<()> {
    let name = named(graph.edges())?;
    if from >= 256 || from + 1 >= graph.nodes() {
        return None;
    }
    let none = VarSet::empty();
    match graph.add_edge(name, NodeId(from), NodeId(from + 1), none, none) {
        Ok(_) => Some(()),
        Err(_) => None,
    }
}

// The name x and three digits.
fn named(number: u16) -> Option<Name>
    ensures { IfSome result (λ n. has_text n reserved ≡ false) }
{
    let digit = |place: u16| b'0' + (place % 10) as u8;
    let text = [b'x', digit(number / 100), digit(number / 10), digit(number)];
    let name = Name::new(&text)?;
    if name.reserved() {
        return None;
    }
    Some(name)
}
RATTLE
echo 4096 >"$bench/stdout"
made=$(built)
python3 - "$made" "$here/bench" <<'PYTHON'
import sys

program, bench = sys.argv[1:]
sys.dont_write_bytecode = True
sys.path.insert(0, bench)
import limits

said, spent, peak = limits.ran([program])
assert said == b"4096\n", said
print(f'4,096 views of 62,931 open views: {spent:.2f} s, {peak:.0f} MiB')
PYTHON

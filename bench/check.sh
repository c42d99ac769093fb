#!/usr/bin/env bash
# Checks the shape and the blinding of the largest graph that is accepted, a ring of 16 roles with 256 nodes and 512 edges, finds its targets,
# and prints the seconds of each. A node's walks come to the roles in the order of the ring, so no two are blinded and each pair is looked at.
# The program is made in a folder of its own, over this repository's crates. No part of the gate.
set -eu
source "$(dirname "${BASH_SOURCE[0]}")/common.sh"
program rings sg_base sg_check sg_graph sg_plan sg_model
cat >"$bench/src/main.rt" <<'RATTLE'
//! The checks of a ring of roles.
#![tactic(auto)]

ghost use Rattle.std.specs.Prelude.{◌≡◌, false, IfSome};
ghost use Rattle.sg_model.specs.Lists.{has_text};
ghost use Rattle.sg_model.specs.Names.{reserved};

use sg_base::{Name, NodeId, Role, VarSet};
use sg_check::{check_blinding, check_shape};
use sg_graph::Graph;
use sg_plan::targets;
use std::alloc::Global;
use std::time::Instant;
use std::{fs, io};

// It measures where the file `go` has a byte.
fn main(rt: HostRuntime) -> io::Result<()> {
    if fs::read(&rt, "go")?.is_empty() {
        return Ok(());
    }
    let Some(graph) = ring(rt.alloc()) else {
        return println!(rt; "no ring");
    };
    let start = Instant::now(&rt)?;
    let shaped = check_shape(&graph).is_ok();
    let shape = start.elapsed(&rt)?;
    let start = Instant::now(&rt)?;
    let sighted = check_blinding(rt.alloc(), &graph).is_ok();
    let blinding = start.elapsed(&rt)?;
    let start = Instant::now(&rt)?;
    let planned = targets(rt.alloc(), &graph).is_ok();
    let plan = start.elapsed(&rt)?;
    println!(rt; "{shaped} {sighted} {planned}")?;
    println!(rt; "{} {} {}", shape.as_micros(), blinding.as_micros(), plan.as_micros())
}

// 16 nodes of each role. From each, two edges lead to nodes of the next role.
fn ring(alloc: Global) -> Option<Graph> {
    let mut graph = Graph::new(alloc, named(b'g', 0)?);
    add_roles(&mut graph)?;
    add_nodes(&mut graph)?;
    add_edges(&mut graph)?;
    Some(graph)
}

fn add_roles(graph: &mut Graph) -> Option<()> {
    for number in 0..16 {
        graph.add_role(named(b'r', number)?).ok()?;
    }
    Some(())
}

fn add_nodes(graph: &mut Graph) -> Option<()> {
    for number in 0..256u16 {
        let name = named(b'n', number)?;
        let role = Role((number / 16 % 16) as u8);
        if role.0 >= graph.roles() {
            return None;
        }
        graph.add_node(name, role).ok()?;
    }
    Some(())
}

fn add_edges(graph: &mut Graph) -> Option<()> {
    for number in 0..512u16 {
        let name = named(b'e', number)?;
        let from = number / 2 % 256;
        let source = NodeId(from);
        let target = NodeId((from / 16 * 16 + 16 + (from + number % 2) % 16) % 256);
        if source.0 >= graph.nodes() || target.0 >= graph.nodes() {
            return None;
        }
        let none = VarSet::empty();
        graph.add_edge(name, source, target, none, none).ok()?;
    }
    Some(())
}

// A name of a letter and three digits.
fn named(kind: u8, number: u16) -> Option<Name>
    ensures { IfSome result (λ n. has_text n reserved ≡ false) }
{
    let digit = |place: u16| b'0' + (place % 10) as u8;
    let text = [kind, digit(number / 100), digit(number / 10), digit(number)];
    let name = Name::new(&text)?;
    if name.reserved() {
        return None;
    }
    Some(name)
}
RATTLE
mkdir "$bench/data"
: >"$bench/data/go"
made=$(built)
echo >"$folder/go"
(cd "$folder" && "$made") >"$folder/told"
if [ "$(head -n 1 "$folder/told")" != 'true true true' ]; then
    echo 'the ring is refused' >&2
    exit 1
fi
read -r shape blinding plan < <(tail -n 1 "$folder/told")
printf '%s: %d.%06d s\n' shape $((shape / 1000000)) $((shape % 1000000))
printf '%s: %d.%06d s\n' blinding $((blinding / 1000000)) $((blinding % 1000000))
printf '%s: %d.%06d s\n' targets $((plan / 1000000)) $((plan % 1000000))

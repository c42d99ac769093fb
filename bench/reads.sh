#!/usr/bin/env bash
# Checks the reads of a graph with 16 roles, 32 variables, 256 nodes and 512 edges, in which each edge reads each variable, and prints the
# seconds of one check. The program is made in a folder of its own, over this repository's crates. Needs python3; no part of the gate.
set -eu
source "$(dirname "${BASH_SOURCE[0]}")/common.sh"
program reads sg_base sg_graph sg_know sg_model sg_protocol
mkdir -p "$bench/proofs/all_roles" "$bench/proofs/some_vars"
cat >"$bench/src/main.rt" <<'RATTLE'
//! One graph, checked again and again.
#![tactic(auto)]
ghost use Rattle.std.specs.Prelude.{◌≡◌, ◌<◌, false, length, IfSome};
ghost use Rattle.sg_model.specs.Lists.{has_text};
ghost use Rattle.sg_model.specs.Names.{reserved};
ghost use Rattle.sg_protocol.specs.Graph.{AreNumbers};

use sg_base::{Name, NodeId, Role, RoleSet, Var, VarSet, VarType};
use sg_graph::Graph;
use sg_know::{ReadFault, check_reads};
use std::alloc::Global;
use std::{fs, io};

fn main(rt: HostRuntime) -> Result<(), io::Error> {
    let times = fs::read(&rt, "times")?;
    let mut graph = Graph::new(rt.alloc(), Name::new(b"g").unwrap());
    if !has_parts(&mut graph) {
        return println!(rt; "no graph");
    }
    let mut bad = 0u32;
    for _ in times.as_slice() {
        if is_bad(rt.alloc(), &graph) {
            bad = bad.wrapping_add(1);
        }
    }
    println!(rt; "{bad}")
}

fn is_bad(alloc: Global, graph: &Graph) -> bool {
    match check_reads(alloc, graph) {
        Err(ReadFault::BadRead { .. }) => true,
        _ => false,
    }
}

fn has_parts(graph: &mut Graph) -> bool {
    add_roles(graph).is_some() && add_vars(graph).is_some() && add_nodes(graph).is_some() && add_edges(graph).is_some()
}

fn add_roles(graph: &mut Graph) -> Option<()> {
    for number in 0..16 {
        graph.add_role(name_of(b'r', number)?).ok()?;
    }
    Some(())
}

fn add_vars(graph: &mut Graph) -> Option<()> {
    for number in 0..32 {
        let name = name_of(b'v', number)?;
        let writers = all_roles(graph);
        if writers.is_empty() {
            return None;
        }
        graph.add_var(name, VarType::Int, writers).ok()?;
    }
    Some(())
}

fn add_nodes(graph: &mut Graph) -> Option<()> {
    for number in 0..256u16 {
        let name = name_of(b'n', number)?;
        let role = Role((number % 16) as u8);
        if role.0 >= graph.roles() {
            return None;
        }
        graph.add_node(name, role).ok()?;
    }
    Some(())
}

fn add_edges(graph: &mut Graph) -> Option<()> {
    let mut mask = 1u32;
    for number in 0..512u16 {
        let name = name_of(b'e', number)?;
        let source = NodeId(number % 256);
        let target = NodeId((number % 256 + 1 + number / 256 * 36) % 256);
        if source.0 >= graph.nodes() || target.0 >= graph.nodes() {
            return None;
        }
        mask = mask.wrapping_mul(1_664_525).wrapping_add(1_013_904_223);
        let writes = some_vars(graph, mask & mask >> 7);
        let reads = some_vars(graph, u32::MAX);
        graph.add_edge(name, source, target, writes, reads).ok()?;
    }
    Some(())
}

fn name_of(letter: u8, number: u16) -> Option<Name>
    ensures { IfSome result (λ name. has_text name reserved ≡ false) }
{
    let digit = |place: u16| b'0' + (place % 10) as u8;
    let text = [letter, digit(number / 100), digit(number / 10), digit(number)];
    let name = Name::new(&text)?;
    if name.reserved() { None } else { Some(name) }
}

fn all_roles(graph: &Graph) -> RoleSet
    ensures { AreNumbers (length graph.now.roles) result }
{
    let mut roles = RoleSet::empty();
    for number in 0..graph.roles() {
        roles = roles.with(Role(number));
    }
    roles
}

fn some_vars(graph: &Graph, mask: u32) -> VarSet
    ensures { AreNumbers (length graph.now.variables) result }
{
    let mut vars = VarSet::empty();
    for number in 0..graph.vars() {
        if mask >> number & 1 == 1 {
            vars = vars.with(Var(number));
        }
    }
    vars
}
RATTLE
cat >"$bench/proofs/Lib.antt" </dev/null
cat >"$bench/proofs/all_roles/Invariants.antt" <<'ANTT'
use Rattle.std.proofs.Common.{length}
use Rattle.sg_protocol.specs.Graph.{AreNumbers}
use Rattle.reads.proofs.all_roles.Given as goal

abbrev pub invariant-loop-number : goal.invariant-loop-number
invariant-loop-number l = AreNumbers (length l.graph.roles) l.roles
ANTT
cat >"$bench/proofs/all_roles/Answers.antt" <<'ANTT'
use Rattle.std.proofs.Common.{◌<◌, length, subst, sym, arith}
use Rattle.sg_protocol.specs.Graph.{AreNumbers}
use Rattle.sg_graph.proofs.Sets.{AreNumbers-with_member}
use Rattle.reads.proofs.all_roles.Goals as goal

pub loop-number-preserved : goal.loop-number-preserved
loop-number-preserved c =
    let there : c.loop-number.number < length c.args.graph.now.roles = omega arith in
    subst (AreNumbers (length c.args.graph.now.roles)) (sym c.with-roles.ensures)
    (AreNumbers-with_member 16 (length c.args.graph.now.roles) c.loop-number.number c.loop-number.roles c.loop-number.invariant there)
ANTT
cat >"$bench/proofs/some_vars/Invariants.antt" <<'ANTT'
use Rattle.std.proofs.Common.{length}
use Rattle.sg_protocol.specs.Graph.{AreNumbers}
use Rattle.reads.proofs.some_vars.Given as goal

abbrev pub invariant-loop-number : goal.invariant-loop-number
invariant-loop-number l = AreNumbers (length l.graph.variables) l.vars
ANTT
cat >"$bench/proofs/some_vars/Answers.antt" <<'ANTT'
use Rattle.std.proofs.Common.{◌<◌, length, List, ℕ, subst, sym, ◌∙◌, arith}
use Rattle.sg_protocol.specs.Graph.{AreNumbers}
use Rattle.sg_graph.proofs.Sets.{AreNumbers-with_member}
use Rattle.reads.proofs.some_vars.Goals as goal
use Rattle.reads.proofs.some_vars.Goals.{then-mask-number-eq1, else-mask-number-eq1}

pub loop-number-preserved : goal.loop-number-preserved
loop-number-preserved c =
    let there : c.loop-number.number < length c.args.graph.now.variables = omega arith in
    elim c.if-mask-number-eq1.branch [
      | then-mask-number-eq1 w ↦ subst (AreNumbers (length c.args.graph.now.variables)) (sym (w.vars-is ∙ w.with-vars.ensures))
        (AreNumbers-with_member 32 (length c.args.graph.now.variables) c.loop-number.number c.loop-number.vars c.loop-number.invariant there)
      | else-mask-number-eq1 w ↦ subst (AreNumbers (length c.args.graph.now.variables)) (sym w.vars-is) c.loop-number.invariant
    ]
ANTT
mkdir "$bench/data"
: >"$bench/data/times"
echo 0 >"$bench/stdout"
made=$(built)
python3 - "$made" "$folder" "$here/bench" <<'PYTHON'
import sys

program, folder, bench = sys.argv[1:]
sys.dont_write_bytecode = True
sys.path.insert(0, bench)
import limits


def seconds(times):
    with open(folder + '/times', 'w') as it:
        it.write('.' * times)
    said, spent, _ = limits.ran([program], folder)
    assert said == b"%d\n" % times, said
    return spent


built = seconds(0)
print(f'one check: {(seconds(20) - built) / 20:.4f} s')
PYTHON

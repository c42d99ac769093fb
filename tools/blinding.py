"""Where the two walks of a blinding refusal part.

`graph refused: blinding at NODE for A and B: WALK / WALK` names the first node, in the order of their declaration, from which two roles are blinded.
Both walks may begin with the same labels; then the node at which they part is blinding for the same two roles too, and is where the graph is mended:
it comes on the way to either, so neither of the two has a node before it, and it is none of theirs.
"""
import re
from collections import namedtuple

Parting = namedtuple('Parting', 'node line column shared first second')
Parting.__doc__ = """The node's name, the line and the column (from 1) of its name where it is declared; the labels that both walks begin with; the
labels of the first and of the second walk from the node on, none of them empty."""

REFUSAL = re.compile(r'(?:graph refused: )?blinding at (\w+) for (\w+) and (\w+): ([\w ]+) / ([\w ]+)')
Mend = namedtuple('Mend', 'role walk target')
Mend.__doc__ = """The role that gets a node on a walk, a list of labels, right before its last node, and the role of that last node."""
NAME = '[A-Za-z][A-Za-z0-9_]*'


def shared_labels(first, second):
    """The labels with which both walks begin."""
    count = 0
    while count < min(len(first), len(second)) and first[count] == second[count]:
        count += 1
    return first[:count]


def without_comments(text):
    """A text in which each byte of a comment is a space, so that all else stands where it stood."""
    return re.sub('#[^\n]*', lambda found: ' ' * len(found[0]), text)


def statement(kind, name, rest=''):
    """The pattern of a statement that declares a name; its first group is the name."""
    return re.compile(rf'\b{kind}\s+({name})\s*:{rest}')


def graphs_in(text):
    """Where each graph of a text begins and ends: a graph file has one, a text of parts or a schedule may have several."""
    starts = [found.start() for found in re.finditer(rf'\bgraph\s+{NAME}\s*;', text)]
    return list(zip(starts, starts[1:] + [len(text)]))


def where_walks_part(text, line):
    """Where the two walks of a refusal part, by the text that was refused and the refusal's line, as a `Parting`.

    The text is that of a graph, of parts or of a schedule. None if the line is no such refusal, or if not exactly one graph in the text has the
    node and all labels that it names, for example if parts were composed and the names are those of the expansion."""
    found = REFUSAL.fullmatch(line.strip())
    if not found:
        return None
    node, first, second = found[1], found[4].split(), found[5].split()
    shared, bare = shared_labels(first, second), without_comments(text)
    fitting = [ends for ends in graphs_in(bare) if statement('node', node).search(bare, *ends)
               and all(statement('edge', label).search(bare, *ends) for label in first + second)]
    if len(fitting) != 1 or not first[len(shared):] or not second[len(shared):]:
        return None
    if shared:
        node = statement('edge', shared[-1], rf'\s*{NAME}\s*->\s*({NAME})').search(bare, *fitting[0])[2]
    at = statement('node', node).search(bare, *fitting[0]).start(1)
    return Parting(node, text.count('\n', 0, at) + 1, at - text.rfind('\n', 0, at), shared, first[len(shared):], second[len(shared):])


def blinded(nodes, ways):
    """Each node with each two roles that it blinds, as triples. Nodes have their roles by name, and ways are pairs of nodes."""
    roles, into, found = sorted(set(nodes.values())), {}, set()
    for source, target in ways:
        into.setdefault(target, set()).add(source)
    for place, a in enumerate(roles):
        for b in roles[place + 1:]:
            both = set(nodes)
            for role in (a, b):
                # (the nodes from which a walk leads to the role, and passes none of the two before)
                queue, seen = [node for node in nodes if nodes[node] == role], set()
                while queue:
                    more = {node for node in into.get(queue.pop(), ()) if nodes[node] not in (a, b)} - seen
                    seen |= more
                    queue += more
                both &= seen
            found |= {(node, a, b) for node in both}
    return found


def mends(nodes, edges, a, b, first, second):
    """How a blinding for two roles is mended: the one gets a node on the walk to the other. Walks are from where they part on; nodes have their roles by
    name, and edges their two nodes.

    Which of the two mends are best, as `Mend`s: those that bring no new blinding, if there are such, and of these the ones that leave fewest. And whether
    nothing is blinded afterwards, which is None if the edges of the walks aren't known."""
    both = [Mend(a, second, b), Mend(b, first, a)]
    if any(label not in edges for label in first + second):
        return both, None
    before, left = blinded(nodes, edges.values()), {}
    for it in both:
        source, target = edges[it.walk[-1]]
        ways = [ends for label, ends in edges.items() if label != it.walk[-1]] + [(source, ''), ('', target)]
        found = {one for one in blinded({**nodes, '': it.role}, ways) if one[0]}
        left[it.role] = bool(found - before), len(found)
    best = min(left.values())
    return [it for it in both if left[it.role] == best], best[1] == 0

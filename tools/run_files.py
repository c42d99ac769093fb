"""Reads the key files and scripts of runs: which key or entry is wrong and where, and what a script says that its graph rules out.

The forms are those of docs/formats.md (Key file, Script). A fault is an offset and a sentence; entries are numbered as the program numbers them.
"""
import re

import toml_text
from texts import NAME_RULE, is_name, line_number, listed, meant

MOST_TIMES = 1_000_000


class Fault:
    """What is wrong in a file: the entry's number, where in it, a sentence, and where the first stands of what is there twice."""

    def __init__(self, entry, at, what, first=None):
        self.entry, self.at, self.what, self.first = entry, at, what, first


class Wrong(Exception):
    """A value that is not in its form: its offset and a sentence."""

    def __init__(self, at, what):
        super().__init__(what)
        self.at, self.what = at, what


TYPES = ((bool, "true or false"), (int, "an integer"), (float, "a number with a point"), (toml_text.Moment, "a date or a time"), (str, "a text"), (list, "an array"), (dict, "a table"))


def type_of(found):
    return next(told for kind, told in TYPES if isinstance(found.value, kind))


def text_in(table, name, at):
    """Returns the text of this key in a table."""
    if name not in table:
        raise Wrong(at, f"`{name}` is missing")
    it = table[name]
    if not isinstance(it.value, str) or isinstance(it.value, toml_text.Moment):
        raise Wrong(it.at, f"`{name}` is a text between quotes, and this is {type_of(it)}")
    return it.value


def name_in(table, key, at):
    word = text_in(table, key, at)
    if not is_name(word):
        raise Wrong(table[key].at, f"`{key}` is a name, and `{word[:40]}` is none: {NAME_RULE}")
    return word


def only(table, names, what):
    """Looks that a table has no other keys than these."""
    for name, it in table.items():
        if name not in names:
            raise Wrong(it.key_at, f"{what} has no key `{name}`{meant(name, names)}: its keys are {', '.join(names)}")


# ---- key files


def address_in(table, key, at):
    """Looks that an address is one."""
    word, at = text_in(table, key, at), table[key].at if key in table else at
    digits = "an address is digits: four numbers from 0 to 255 with dots between them, `:`, and a port, as 127.0.0.1:4001"
    host, sign, port = word.rpartition(":")
    if not sign:
        raise Wrong(at, f"`{key}` has no port: {digits}" if re.fullmatch(r"[\d.]+", word) else f"`{word[:60]}` is no address: {digits}")
    if host == "localhost":
        raise Wrong(at, f"names of hosts are not looked up: write 127.0.0.1:{port}; {digits}")
    parts = host.split(".")
    if not re.fullmatch(r"\d+(\.\d+){3}", host):
        why = "addresses of IPv6 are not taken" if ":" in host else "names of hosts are not looked up" if re.search("[A-Za-z]", host) else f"`{word[:60]}` is no address"
        raise Wrong(at, f"{why}: {digits}")
    for it in parts:
        if not re.fullmatch("0|[1-9][0-9]{0,2}", it) or int(it) > 255:
            raise Wrong(at, f"{it} is none of the numbers from 0 to 255 without a needless zero: {digits}")
    if not re.fullmatch("[1-9][0-9]{0,4}", port) or int(port) > 65535:
        raise Wrong(at, f"`{port[:20]}` is no port: a port is a number from 1 to 65535 without a needless zero")
    return word


def key_in(table, at):
    word = text_in(table, "key", at)
    if not re.fullmatch("[0-9A-Fa-f]{64}", word):
        bad = re.search("[^0-9A-Fa-f]", word)
        raise Wrong(table["key"].at, f"a key has 64 hexadecimal digits, and {f'`{bad[0]}` is none' if bad else f'here are {len(word)}'}")


def peers_of(root):
    """Returns the tables of the peers."""
    it = root.get("peer")
    if it is None:
        return []
    if not isinstance(it.value, list) or not all(isinstance(one.value, dict) for one in it.value):
        raise Wrong(it.key_at, "`peer` is a list of tables, each with the heading [[peer]]")
    return it.value


def fault_of_keys(root):
    """Returns the first fault of a key file, or nothing."""
    entry = 0
    try:
        only(root, ("me", "listen", "peer"), "the head of a key file")
        me = name_in(root, "me", 0)
        address_in(root, "listen", 0)
        seen = {me: root["me"].at}
        for entry, it in enumerate(peers_of(root), 1):
            only(it.value, ("name", "addr", "key"), "a peer")
            name = name_in(it.value, "name", it.at)
            address_in(it.value, "addr", it.at)
            key_in(it.value, it.at)
            if name in seen:
                return Fault(entry, it.value["name"].at, f"`{name}` is the principal itself" if name == me else f"`{name}` is a peer already", seen[name])
            seen[name] = it.value["name"].at
    except Wrong as it:
        return Fault(entry, it.at, it.what)
    return None


def listens_of(text):
    """Returns the principal and the address, as four numbers and a port, of a right key file; another one raises Wrong."""
    try:
        root = toml_text.read(text)
    except toml_text.NotToml as it:
        raise Wrong(it.at, it.what) from None
    fault = fault_of_keys(root)
    if fault:
        raise Wrong(fault.at, fault.what)
    host, _, port = root["listen"].value.partition(":")
    return root["me"].value, host, int(port)


# ---- scripts


def tables_of(root, name):
    it = root.get(name)
    if it is None:
        return []
    if not isinstance(it.value, list) or not all(isinstance(one.value, dict) for one in it.value):
        raise Wrong(it.key_at, f"`{name}` is a list of tables, each with the heading [[{name}]]")
    return it.value


def graph_in(table, at, graphs):
    word = text_in(table, "graph", at)
    if word not in graphs:
        raise Wrong(table["graph"].at, f"no program of a graph `{word[:40]}` is given{meant(word, graphs)}: those that are given are of {listed(graphs)}")
    return graphs[word]


def declared_in(table, key, at, names, what):
    word = text_in(table, key, at)
    if word not in names:
        raise Wrong(table[key].at, f"`{what}` has no {key} `{word[:40]}`{meant(word, names)}: its {key}s are {listed(names)}")
    return word


def number_in(table, key, least, most, usual):
    if key not in table:
        return usual
    it = table[key]
    if not isinstance(it.value, int) or isinstance(it.value, bool) or not least <= it.value <= most:
        raise Wrong(it.at, f"`{key}` is a number from {least} to {most}")
    return it.value


def check_start(it, graphs):
    table = it.value
    only(table, ("graph", "cast", "version"), "a start")
    graph_in(table, it.at, graphs)
    if "cast" not in table:
        raise Wrong(it.at, "`cast` is missing")
    cast = table["cast"]
    if not isinstance(cast.value, list) or not 2 <= len(cast.value) <= 16:
        raise Wrong(cast.at, "`cast` is an array of 2 to 16 names, one for each role in the graph's order")
    for one in cast.value:
        if not isinstance(one.value, str) or not is_name(one.value):
            raise Wrong(one.at, f"`cast` is an array of names; {NAME_RULE}")
    number_in(table, "version", 1, 2, 1)


def check_choice(it, graphs):
    table = it.value
    only(table, ("graph", "node", "label", "values", "times"), "a choice")
    graph = graph_in(table, it.at, graphs)
    declared_in(table, "node", it.at, graph.nodes, graph.name)
    declared_in(table, "label", it.at, graph.edges, graph.name)
    values = table.get("values")
    if values and not isinstance(values.value, dict):
        raise Wrong(values.at, "`values` is a table, as { VAR = VALUE }")
    for name, one in values.value.items() if values else ():
        if name not in graph.variables:
            raise Wrong(one.key_at, f"`{graph.name}` has no variable `{name}`{meant(name, graph.variables)}: its variables are {listed(graph.variables)}")
        if isinstance(one.value, (bool, float, toml_text.Moment, list, dict)) or isinstance(one.value, int) and not -(2**63) <= one.value < 2**63:
            raise Wrong(one.at, f"a value is an integer or a text, and this is {type_of(one)}")
        if isinstance(one.value, str) and len(one.value.encode()) > 1024:
            raise Wrong(one.at, "a text has at most 1,024 bytes")
    number_in(table, "times", 1, MOST_TIMES, 1)


def fault_of_script(root, graphs):
    """Returns the kind of table and the first fault of a script beside these graphs by name, or nothing."""
    for kind, check, at_head in (("start", check_start, True), ("choice", check_choice, False)):
        entry = 0
        try:
            if at_head:
                only(root, ("start", "choice"), "a script")
            for entry, it in enumerate(tables_of(root, kind), 1):
                check(it, graphs)
        except Wrong as it:
            return kind, Fault(entry, it.at, it.what)
    return None


class Advice:
    """What a graph rules out in a script: the table, its number and key, the offset and a sentence."""

    def __init__(self, table, entry, key, at, what):
        self.table, self.entry, self.key, self.at, self.what = table, entry, key, at, what

    def told(self, text):
        """Returns the line, the column and the sentence, with its table and key."""
        start = text.rfind(b"\n", 0, self.at) + 1
        column = len(text[start : self.at].decode("utf-8", "replace")) + 1
        return line_number(text, self.at), column, f"{self.table} {self.entry}, {self.key}: {self.what}"


def ruled_out(root, programs, head=None):
    """Returns what the graphs of programs rule out in a right script, in its order. With the root of a key file, casts are compared with it."""
    graphs = graphs_of(programs)
    found = []
    for entry, it in enumerate(tables_of(root, "start"), 1):
        found += [Advice("start", entry, key, at, what) for key, at, what in in_start(it, graphs, programs, head)]
    full = {}
    for entry, it in enumerate(tables_of(root, "choice"), 1):
        found += [Advice("choice", entry, key, at, what) for key, at, what in in_choice(it, graphs, programs)]
        turn = (it.value["graph"].value, it.value["node"].value)
        if turn in full:
            found.append(Advice("choice", entry, "node", it.value["node"].at, f"it is never made: choice {full[turn]} for {turn[1]} has {MOST_TIMES:,} uses, and takes each turn there"))
        elif number_in(it.value, "times", 1, MOST_TIMES, 1) == MOST_TIMES:
            full[turn] = entry
    return sorted(found, key=lambda one: one.at)


def comes_again(graph, node):
    """Returns whether a walk leads from a node to itself."""
    seen, todo = set(), [node]
    while todo:
        found = {edge.target for edge in graph.edges.values() if edge.source == todo[-1]} - seen
        todo.pop()
        seen |= found
        todo += found
    return node in seen


def made_once(root, programs):
    """Returns of each choice that is the only one for a node of a loop, and has one use by having no `times`, that it is made once."""
    graphs, found = graphs_of(programs), []
    tables = [(entry, it.value) for entry, it in enumerate(tables_of(root, "choice"), 1)]
    turns = [(it["graph"].value, it["node"].value) for _, it in tables]
    for (entry, it), (graph, node) in zip(tables, turns):
        if "times" not in it and turns.count((graph, node)) == 1 and comes_again(graphs[graph], node):
            found.append(Advice("choice", entry, "node", it["node"].at, f"it is made once, since it has no `times`, and a session may come to {node} again, which then is abandoned there"))
    return found


def graphs_of(programs):
    """Returns the graphs of programs by their names, the first of each name."""
    graphs = {}
    for it in programs:
        graphs.setdefault(it.graph.name, it.graph)
    return graphs


def roles_of(programs, graph):
    return [it.role for it in programs if it.graph.name == graph.name]


def in_start(it, graphs, programs, head):
    """What is ruled out in a start: the key, the offset and a sentence each."""
    graph, cast = graphs[it.value["graph"].value], it.value["cast"]
    names, first = [one.value for one in cast.value], graph.nodes[graph.start()]
    if len(names) != len(graph.roles):
        yield "cast", cast.at, f"{graph.name} has {len(graph.roles)} roles, {' '.join(graph.roles)}, and here are {len(names)} names: refused as bad-cast"
        return
    for place, one in enumerate(cast.value):
        if one.value in names[:place]:
            yield "cast", one.at, f"{one.value} stands twice, and no principal has two roles: refused as bad-cast"
            return
    if first not in roles_of(programs, graph):
        yield "graph", it.value["graph"].at, f"{graph.name} begins with the role {first}, of which no program is given: refused as unknown-graph"
    if head:
        me, known = head["me"].value, [one.value["name"].value for one in peers_of(head)]
        starter = cast.value[graph.roles.index(first)]
        if starter.value != me:
            yield "cast", starter.at, f"{graph.name} begins with the role {first}, so {me} must stand here: refused as bad-cast"
            return
        for one in cast.value:
            if one.value not in [me, *known]:
                yield "cast", one.at, f"the key file has no peer {one.value}: refused as unknown-peer"


def in_choice(it, graphs, programs):
    """What is ruled out in a choice: the key, the offset and a sentence each."""
    graph, node, label = graphs[it.value["graph"].value], it.value["node"], it.value["label"]
    role = graph.nodes[node.value]
    if role not in roles_of(programs, graph):
        yield "node", node.at, f"it is never made: {node.value} is a node of {role}, and programs are given of {listed(roles_of(programs, graph))}"
    leaving, edge = graph.leaving(node.value), graph.edges[label.value]
    if label.value not in leaving:
        yield "label", label.at, f"{label.value} leaves {edge.source}; {node.value} is left by {listed(leaving)}: refused as no-such-label"
        return
    values = it.value["values"].value if "values" in it.value else {}
    for name in edge.writes:
        if name not in values:
            yield "values", (it.value["values"].at if "values" in it.value else label.at), f"{label.value} writes {name}, and no value of it is given: refused as bad-values {name}"
    for name, one in values.items():
        wanted, given = graph.variables[name], "text" if isinstance(one.value, str) else "int"
        if name not in edge.writes:
            yield f"values.{name}", one.key_at, f"{label.value} doesn't write {name}: refused as bad-values {name}"
        elif wanted != given:
            yield f"values.{name}", one.at, f"{name} is of the type {wanted}, and this is {type_of(one)}: refused as bad-values {name}"

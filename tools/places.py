"""Finds the place in a file that a refusal of the program speaks of, and says what is wrong just there.

`place_of` is given the program's line, and returns a Place: the text, the offset, and sentences about this place. What the rule asks in general stands in
docs/refusals.md. Nothing here decides anything: the program has refused the file already.
"""
import re
import subprocess
import tempfile

import line_forms
import run_files
import toml_text
from blinding import mends, where_walks_part
from texts import (KINDS, NAME_RULE, RESERVED, STEPS, TOKEN, Graph, Names, Program, blocks_of, graph_statements, kind_of, line_number, lines_of,
                   lines_outside, listed, meant, sentence, statements)


class Place:
    """A place in a file: its text, the offset if it is known, sentences about it, the form that should stand there, if it is known, and whether the
    sentences say all, so that those of the rule would only mislead."""

    def __init__(self, file, text, at=None, here=(), form=None, whole=False):
        self.file, self.text, self.at, self.here, self.form, self.whole = file, text, at, [it for it in here if it], form, whole


# ---- graph texts


def declared(found, kind, name):
    """Returns where the statement of this kind declares the name; if there is none, the use that a name of an expansion comes from."""
    for it in found:
        if it[0][0] == kind and it[1][0] == name:
            return it
    for it in found:
        if it[0][0] == "use" and name.startswith(f"{it[1][0]}_"):
            return it
    return None


def in_graph(text, how, said):
    """Returns the offset in a graph text of what a refusal names, if it can be found."""
    found = graph_statements(text)
    if how == "roles":
        return next((it[1][1] for it in found if it[0][0] == "role"), None)
    statement = declared(found, {"edge": "edge", "node": "node", "role": "role"}[how], said[2])
    if statement is None:
        return None
    if how == "edge" and len(said.groups()) > 2 and statement[0][0] == "edge":
        # (the variable, if the edge reads it, or else if it writes it)
        named = [at for token, at in statement[2:] if token == said[3]]
        reads = [at for token, at in statement if token == "reads"]
        wanted = [at for at in named if reads and (at > reads[0]) == (said[1] != "not writer")] or named
        return wanted[0] if wanted else statement[1][1]
    return statement[1][1]


def in_parts(text, part, use):
    """Returns the offset of a use in a part."""
    here = None
    for it in statements(text):
        here = it[1][0] if it[0][0] == "graph" else here
        if here == part and it[0][0] == "use" and it[1][0] == use:
            return it[1][1]
    return None


def of_token(text, at, what):
    """Returns a sentence about the token at an offset that a graph text is refused for, if there is one."""
    before, byte = text[at - 1 : at], text[at : at + 1]
    if what == "bad byte":
        if byte == b",":
            return "The names of a list have spaces between them, and no commas."
        if byte == b"-" and text[at + 1 : at + 2].isspace():
            return "An arrow is written in one piece: ->."
        if byte.isdigit() or byte == b"_" or re.match(rb"\w", before):
            return sentence(NAME_RULE)
        return None
    token = re.match(rb"[A-Za-z]\w*|->|.|$", text[at:], re.S)[0].decode("latin-1")
    found = [it for it in statements(text[: at + len(token)])]
    statement = found[-1] if found and found[-1][-1][1] == at else []
    if what == "unexpected":
        return of_unexpected(begun(text, at), token)
    if what == "twice" and statement:
        return of_second(text, found, statement, token)
    if what == "unknown name" and statement:
        return of_unknown(found, statement, token)
    return None


# The forms of statements in graph texts.
STATEMENTS = {
    "graph": "graph NAME;",
    "role": "role NAME;",
    "var": "var NAME: int by ROLE ..;, or var NAME: text by ROLE ..;",
    "node": "node NAME: ROLE;",
    "edge": "edge LABEL: NODE -> NODE [writes VAR ..] [reads VAR ..];",
    "use": "use NAME: PART NODE -> NODE as ROLE ..;",
}
# The words that they begin with.
ORDERS = {
    "graph": ["graph", "a name"],
    "role": ["role", "a name"],
    "var": ["var", "a name", ":", "int", "by"],
    "node": ["node", "a name", ":", "a name"],
    "edge": ["edge", "a name", ":", "a name", "->", "a name"],
    "use": ["use", "a name", ":", "a name", "a name", "->", "a name", "as"],
}


def begun(text, at):
    """Returns the words of the statement in a graph text that is begun before an offset."""
    words = [it[0].decode("latin-1") for it in TOKEN.finditer(text[:at]) if not it[0].startswith(b"#")]
    return words[max((place + 1 for place, it in enumerate(words) if it == ";"), default=0) :]


def of_unexpected(words, token):
    """Tells what should stand behind the words of a statement that is begun, in the place of a token."""
    if not words and token not in RESERVED and re.match("[A-Za-z]", token):
        return f"No statement begins with {token}{meant(token, STATEMENTS)}."
    if not words or words[0] not in STATEMENTS:
        return None
    kind, before = words[0], words[-1]
    if kind == "var" and len(words) == 3 and before == ":":
        return f"A variable is `int` or `text`{f', and {token} is neither' if token else ''}."
    if kind == "edge" and token == "writes" and "reads" in words:
        return "`writes` stands before `reads`."
    order = ORDERS[kind]
    wanted = order[len(words)] if len(words) < len(order) else "a name" if before in ("by", "as", "writes", "reads") else ";"
    if wanted == "a name":
        return f"{token} is a reserved word, and here a name is wanted." if token in RESERVED else f"A name must stand behind {before}."
    return f"`{wanted}` must stand behind {before}."


def of_second(text, found, statement, name):
    """Tells where the first of two stands: in the same list, or in a statement of the same kind in the same graph."""
    kind, first = statement[0][0], None
    if len(statement) > 2:
        first = next((at for token, at in statement[2:-1] if token == name), None)
    else:
        graph = found if kind == "graph" else found[max((at for at, it in enumerate(found) if it[0][0] == "graph"), default=0) :]
        first = next((it[1][1] for it in graph[:-1] if it[0][0] == kind and it[1][0] == name), None)
    if first is None:
        return None
    column = first - text.rfind(b"\n", 0, first)
    return f"The first {name} stands in line {line_number(text, first)}, column {column}."


def of_unknown(found, statement, name):
    """Tells which names are declared of the kind that is wanted, and which is perhaps meant."""
    words = [token for token, _ in statement]
    kind = "node" if words[0] == "edge" and len(words) < 7 else "var" if words[0] == "edge" else "role" if words[0] in ("var", "node") else None
    if words[0] == "use":
        kind = "graph" if len(words) == 4 else "node" if len(words) < 8 else "role"
    first = max((at for at, it in enumerate(found) if it[0][0] == "graph"), default=0)
    names = [it[1][0] for it in found[:-1] if it[0][0] == kind and (kind != "graph" or it is not found[first])]
    if kind != "graph":
        names = [it[1][0] for it in found[first:-1] if it[0][0] == kind]
    called = {"var": "variables", "node": "nodes", "role": "roles", "graph": "parts"}.get(kind)
    return f"The {called} that are declared before are {listed(names)}{meant(name, names)}." if called else None


def of_graph(text, how, said, line):
    """Returns a sentence about what a rule of graphs refuses."""
    graph = Graph(text)
    if said[1] == "unreachable" and graph.is_whole():
        reached, more = {graph.start()}, True
        while more:
            found = {it.target for it in graph.edges.values() if it.source in reached} - reached
            reached, more = reached | found, bool(found)
        others = [it for it in graph.nodes if it not in reached and it != said[2]]
        return f"No walk leads to {listed(others)} either." if others else None
    if said[1] == "blinding":
        return of_blinding(text, graph, said, line)
    return None


def of_blinding(text, graph, said, line):
    """Tells where the two walks part, if that isn't the node which the refusal names, and which node on which of them mends it."""
    a, b, *walks = re.fullmatch(r".* for (\w+) and (\w+): ([\w ]+) / ([\w ]+)", line.strip()).groups()
    it = where_walks_part(text.decode("latin-1"), line)
    first, second = (it.first, it.second) if it else (walk.split() for walk in walks)
    edges = {label: (edge.source, edge.target) for label, edge in graph.edges.items()} if it and graph.is_whole() else {}
    found, whole = mends(graph.nodes, edges, a, b, first, second)
    mended = ", or ".join(f"a node of {it.role} on `{' '.join(it.walk)}` right before that of {it.target}" for it in found)
    told = f"To mend it, put {mended}." + {None: "", True: " The graph then has no blinding.", False: " The graph then still has another blinding."}[whole]
    if it and it.node != said[2]:
        told = f"The two walks part at {it.node}, which line {it.line} declares, by {first[0]} and {second[0]}. {told}"
    return told


def of_claims(graph, text, at, line):
    """Tells which label or graph is perhaps meant by a name in a text of claims that the graph doesn't have."""
    name = re.match(rb"\w*", text[at:])[0].decode("latin-1")
    if b"unknown name" in line:
        return f"{graph.name} has no label {name}{meant(name, graph.edges)}: its labels are {listed(graph.edges)}."
    return f"The graph is called {graph.name}, and these are claims of {name}." if b"other graph" in line else None


# ---- schedules and logs


def variable_of(word):
    return re.split(r"[=#]", word, maxsplit=1)[0]


def wanted(names, words):
    """Returns the offset of the first word of a schedule's line that names what isn't declared, and what is wanted there."""
    said = [it for it, _ in words]
    first, session = said[0], said[2] if said[0] in ("start", "act", "abandon") and len(said) > 2 else said[1] if len(said) > 1 else ""
    graph = names.graph_of(session)
    keyed = [" and ".join(sorted(it)) for it in names.keys]
    for place, (word, at) in enumerate(words):
        before = said[place - 1] if place else ""
        if first == "session" and place == 2 and word not in names.graphs:
            return at, word, "graph", list(names.graphs), "declared above"
        if (first in ("start", "act", "abandon") and place == 2 or first == "craft" and place == 1) and word not in names.sessions:
            return at, word, "session", list(names.sessions), "declared above"
        if (first == "act" and place == 3 or first == "craft" and before == "item") and word not in graph.edges:
            return at, word, "label", list(graph.edges), f"of {graph.name}"
        if (first == "act" and place > 3 or first == "craft" and "=" in word) and variable_of(word) not in graph.variables:
            return at, variable_of(word), "variable", list(graph.variables), f"of {graph.name}"
        role = first == "craft" and (before in ("from", "to", "tag") or place > 2 and said[place - 3] == "copy" and before.isdigit())
        if role and word not in graph.roles:
            return at, word, "role", graph.roles, f"of {graph.name}"
        if first == "craft" and place > 2 and said[place - 2] == "key" and frozenset(said[place - 1 : place + 1]) not in names.keys:
            return words[place - 1][1], f"{before} and {word}", "key", keyed, "of a pair"
    return words[0][1], None, None, [], ""


def of_undeclared(names, words):
    """Returns the offset of what isn't declared in a schedule's line, and a sentence about it."""
    at, word, kind, known, where = wanted(names, words)
    if kind is None:
        return at, None
    if kind == "key":
        either = [it for it in word.split(" and ") if it not in names.principals and any(it in graph.roles for graph in names.graphs.values())]
        told = f" Behind `key` stand principals, and {either[0]} is a role." if either else ""
        return at, f"No `key` line above is of {word}: the pairs with a key are {listed(known)}.{told}"
    told = f" {word} is a principal: behind from, to and tag stand roles, and principals behind `key`." if kind == "role" and word in names.principals | set(names.honest) else ""
    return at, f"{word} is no {kind} {where}{meant(word, known)}: {'there are ' + listed(known) if known else 'there is none'}.{told}"


def of_repeated(names, words):
    """Returns the offset of the first word of a schedule's line that stands a second time, and where the first one stands."""
    first, said = words[0][0], [it for it, _ in words]
    seen = set()
    for word, at in words[4 if first == "act" else 1 :]:
        if variable_of(word) in seen and "=" in word:
            return at, f"{variable_of(word)} has a value in this line already."
        seen.add(variable_of(word))
    at, line = words[1 if len(words) > 1 else 0][1], None
    if first == "honest" and len(said) > 1:
        line = names.honest.get(said[1])
    elif first == "key" and len(said) > 2:
        line = names.keys.get(frozenset(said[1:3]))
    elif first == "session" and len(said) > 1:
        # (the name, or else the graph, nonce, principals and version of another one)
        line = names.sessions[said[1]][0] if said[1] in names.sessions else next((number for number, it in names.sessions.values() if it == said[2:]), None)
    return at, f"The first stands in line {line}." if line else None


def of_undeclared_in_logs(names, words):
    """Returns the offset of the first word of a log file's line that the graph hasn't, and a sentence about it."""
    graph, first = names.last, words[0][0]
    for place, (word, at) in enumerate(words):
        label = re.match(r"\*?(\w*)", word)[1] if first == "walk" else word
        known = None
        if first == "log" and place == 1 and word not in graph.roles:
            known, kind = graph.roles, "role"
        elif (first in ("sent", "received") and place == 1 or first == "walk" and place) and label not in graph.edges:
            known, kind = list(graph.edges), "label"
        if known is not None:
            return at, f"{graph.name} has no {kind} {label}{meant(label, known)}: its {kind}s are {listed(known)}."
        for it in re.finditer(r"(?:^|[(,])(\w+)=", word) if place else ():
            if it[1] not in graph.variables:
                return at + it.start(1), f"{graph.name} has no variable {it[1]}{meant(it[1], graph.variables)}: its variables are {listed(graph.variables)}."
    return words[0][1], None


def of_repeated_in_logs(text, number, words):
    """Returns the offset of what stands twice in a log file's line, and where the first one stands."""
    seen = set()
    for word, at in words[1:]:
        if variable_of(word) in seen and "=" in word:
            return at, f"{variable_of(word)} has a value in this line already."
        seen.add(variable_of(word))
    first = None
    for place, _, it in lines_outside(text):
        if place >= number:
            break
        if it[0][0] == "session" and words[0][0] == "log":
            first = None
        if [one for one, _ in it[:2]] == [one for one, _ in words[:2]]:
            first = first or place
    return words[1 if len(words) > 1 else 0][1], f"The first stands in line {first}." if first else None


def in_line(text, number, what, kind):
    """Returns the offset of what is wrong in a line, a sentence about it, and the form that should stand there."""
    lines = lines_of(text)
    if what == "form":
        found = line_forms.break_of(text, number, kind)
        words = next((it for at, _, it in lines_outside(text) if at == number), None)
        form = line_forms.FORMS[kind].get(words[0][0]) if words else None
        if not found:
            return (words[0][1] if words else lines[number - 1][0] if number <= len(lines) else len(text)), None, form
        return found.at, sentence(found.what), line_forms.PARTS.get(found.part, form)
    words = next((it for at, _, it in lines_outside(text) if at == number), None)
    if words is None:
        return (lines[number - 1][0] if number <= len(lines) else len(text)), None, None
    names = Names(text, number)
    if what == "not-honest" and len(words) > 1:
        return words[1][1], f"The honest principals are {listed(names.honest)}.", None
    if what == "unknown":
        return *(of_undeclared if kind == "a schedule" else of_undeclared_in_logs)(names, words), None
    if what == "twice":
        return *(of_repeated(names, words) if kind == "a schedule" else of_repeated_in_logs(text, number, words)), None
    return words[0][1], None, None


def in_count(text, what):
    """Returns the offset of the first line that is too many."""
    firsts = {"steps": STEPS, "sessions": ("session",), "events": ("sent", "received")}.get(what, ())
    most = {"steps": 200_000, "sessions": 100_000, "events": 100_000}.get(what)
    found = [at for _, _, words in lines_outside(text) for word, at in words[:1] if word in firsts]
    return found[most] if most is not None and len(found) > most else None


def in_edges(text, how, name):
    """Returns the offset of a name of the graph `pair` in the `edge` lines of a schedule."""
    for _, _, words in lines_outside(text):
        if words[0][0] == "edge" and len(words) == 4:
            if how == "edge" and words[1][0] == name:
                return words[1][1]
            node = next((at for word, at in words[2:] if how == "node" and f"n{word}" == name), None)
            if node is not None or how == "role":
                return node if node is not None else words[0][1]
    return None


# ---- runs


def in_toml(file, text, said, programs):
    """Returns the place of what is wrong in a key file or a script."""
    try:
        root = toml_text.read(text)
    except toml_text.NotToml as it:
        return Place(file, text, it.at, [sentence(it.what)]) if said[2] == "not toml" else Place(file, text)
    if said[2] == "not toml":
        return Place(file, text)
    entry, kind = int(said[3]), said[2]
    if said[1] == "keys":
        fault = run_files.fault_of_keys(root)
        heading = "peer"
    else:
        found = run_files.fault_of_script(root, run_files.graphs_of(programs))
        fault, heading = found[1] if found and found[0] == kind else None, kind
    if fault and fault.entry == entry:
        first = f", in line {line_number(text, fault.first)}" if fault.first is not None else ""
        return Place(file, text, fault.at, [sentence(fault.what + first)])
    heads = [it.start(1) for it in re.finditer(rf"^[ \t]*(\[\[[ \t]*{heading}[ \t]*\]\])".encode(), text, re.M)]
    return Place(file, text, heads[entry - 1] if 0 < entry <= len(heads) else None)


def in_program(text, how, said):
    """Returns the offset of what is refused in a program."""
    number = int(said[3])
    if how == "offset":
        return number
    first = text.find(b"\ntable\n") + len(b"\ntable\n")
    starts = [first + at for at, _ in lines_of(text[first:])]
    return starts[number - 1] if number <= len(starts) else len(text)


def of_second_program(files, number):
    """Tells which program a second one of its graph and role is like."""
    found = [Program(read(it) or b"") for it in files]
    own = found[number - 1]
    for place, it in enumerate(found[: number - 1], 1):
        if (it.graph.name, it.role) == (own.graph.name, own.role):
            return f"Program {place}, {files[place - 1]}, is of {own.graph.name} for {own.role} too."
        if it.graph.name == own.graph.name:
            return f"Program {place}, {files[place - 1]}, is of another graph that is called {own.graph.name} too."
    return None


# ---- all


def read(file):
    try:
        with open(file, "rb") as it:
            return it.read()
    except OSError:
        return None


def served_files(words):
    """Returns the files that `serve` is given behind its own name."""
    at = 0
    while words[at] in ("--tcp", "--ledger"):
        at += 1 if words[at] == "--tcp" else 2
    ledger = [(words[words.index("--ledger") + 1], "ledger")] if "--ledger" in words[:at] else []
    return [*ledger, (words[at], "keys"), *((it, "program") for it in words[at + 1 :])]


def files_of(words):
    """Returns the files that a command is given, each with the kind that it should be of."""
    kinds = {"check": "graph", "compile": "graph", "replay": "schedule", "audit": "logs", "compose": "parts"}
    if words[0] in kinds:
        return [(words[1], kinds[words[0]])]
    if words[0] == "drive":
        return [(words[3], "graph")]
    if words[0] == "claims":
        return list(zip(words[1:], ("graph", "claims")))
    if words[0] == "ledger":
        return []
    if words[0] == "serve":
        return served_files(words[1:])
    first = 2 if words[0] == "keep" else 1
    return [(words[1], "ledger")] * (first - 1) + [(words[first], "keys"), (words[first + 1], "script")] + [(it, "program") for it in words[first + 3 :]]


def file_of(words, line):
    """Returns the file that a refusal speaks of with the kind that it should be of: a command's own, or that of a run which the line names."""
    files = files_of(words)
    if words[0] == "claims" and line.startswith(b"input refused: claims"):
        return files[1]
    if words[0] not in ("run", "keep", "stream", "serve"):
        return files[0] if files else None
    said = re.match(rb"input refused: (?:(keys)|(script)|(ledger)|program (\d+))", line)
    kind = "keys" if said and said[1] else "script" if said and said[2] else "ledger" if said and said[3] else "program"
    own = [it for it in files if it[1] == kind]
    return own[int(said[4]) - 1 if said[4] else 0] if said else None


def of_kind(words, text, wanted_kind):
    """Tells that a file is of another kind than the command takes, by its look."""
    kind = kind_of(text)
    if kind is None or kind == wanted_kind or (kind, wanted_kind) == ("graph", "parts"):
        return None
    if (kind, wanted_kind) == ("schedule", "logs") and not any(it[0][0] in ("honest", "key", *STEPS) for _, _, it in lines_outside(text)):
        # (logs without a log begin as a schedule does)
        return None
    takes = {"keys": "key file", "script": "script", "program": "program", "ledger": "ledger"}.get(wanted_kind)
    if words[0] == "claims":
        takes = {"graph": "graph", "claims": "text of claims"}[wanted_kind]
    then = {"parts": " Try `compose`.", "schedule": " Try `replay`.", "logs": " Try `audit`.", "graph": " Try `check`."}.get(kind, "") if not takes else ""
    behind = f"stands where the {takes} must" if takes else f"`{words[0]}` takes {KINDS[wanted_kind].partition(',')[0]}"
    told = KINDS[kind].partition(",")[0] if kind == "parts" else KINDS[kind]
    return f"This is {told}, and {behind}.{then}" if not takes else f"This is {told}, which {behind}."


def block_refused(program, blocks, line):
    """Returns the block of which the program says this line when it checks it alone."""
    for block, first, _ in blocks if len(blocks) > 1 else ():
        with tempfile.NamedTemporaryFile(suffix=".graph") as it:
            it.write(block)
            it.flush()
            ran = subprocess.run([program, "check", it.name], stdin=subprocess.DEVNULL, stdout=subprocess.DEVNULL, stderr=subprocess.PIPE)
        if ran.stderr == line:
            return block, first
    return (blocks[0][0], blocks[0][1]) if len(blocks) == 1 else None


def in_graphs(program, words, file, text, line, how, said):
    """Returns the place in a graph text that is refused, which may be a block of a schedule or of logs."""
    graph, first = text, 0
    if words[0] in ("replay", "audit"):
        blocks = blocks_of(text)
        found = block_refused(program, blocks, line)
        if how != "token" and len(blocks) == 1 and in_graph(blocks[0][0], how, said) is None:
            found = None
        if found is None:
            return Place(file, text, in_edges(text, how, said[2]))
        graph, first = found
    told = line.decode("utf-8", "replace").strip()
    at = int(said[2]) if how == "token" else in_graph(graph, how, said)
    if how == "roles":
        role, roles = told.partition("role ")[2], Graph(graph).roles
        here = f"{Graph(graph).name} has the roles {listed(roles, 16)}{meant(role, roles)}."
    else:
        here = of_token(graph, at, said[1]) if how == "token" else of_graph(graph, how, said, told)
    form = STATEMENTS.get((begun(graph, at) or [""])[0]) if how == "token" and said[1] == "unexpected" else None
    shift = line_number(text, first) - 1
    here = re.sub(r"\bline (\d+)", lambda it: f"line {int(it[1]) + shift}", here) if here else None
    return Place(file, text, None if at is None else first + at, [here], form)


def place_of(program, words, line, how, said, kind):
    """Returns the place that a refusal speaks of, or nothing if it speaks of no file, or of one that can't be read."""
    named = file_of(words, line)
    text = read(named[0]) if named else None
    if text is None:
        return None
    file, wanted_kind = named
    other = of_kind(words, text, wanted_kind)
    if other:
        # (what is wrong in a file of another kind tells nothing)
        return Place(file, text, None, [other], whole=True)
    if how == "claims":
        return Place(file, text, int(said[2]), [of_claims(Graph(read(words[1]) or b""), text, int(said[2]), line)])
    if how == "toml":
        return in_toml(file, text, said, [Program(read(it) or b"") for it, kind in files_of(words) if kind == "program"])
    if how in ("offset", "entry"):
        return Place(file, text, in_program(text, how, said))
    if how == "second":
        programs = [it for it, kind in files_of(words) if kind == "program"]
        return Place(file, text, None, [of_second_program(programs, int(re.search(rb"program (\d+)", line)[1]))])
    if how == "line":
        at, here, form = in_line(text, int(said[1]), said[2], kind)
        return Place(file, text, at, [here], form)
    if how == "count":
        return Place(file, text, in_count(text, said[1]))
    if how == "use":
        return Place(file, text, in_parts(text, *said.groups()[-2:]))
    if how == "file":
        return Place(file, text)
    return in_graphs(program, words, file, text, line, how, said) if wanted_kind != "program" else None

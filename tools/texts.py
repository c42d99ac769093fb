"""Reads graph texts, programs, schedules, logs and the lines of runs, as far as tools need it: what stands in them, and where.

What the program reads it judges itself. These readers take a wrong text too, as far as it goes, and say nothing of it. Offsets count bytes.
"""
import difflib
import re

TOKEN = re.compile(rb"#[^\n]*|->|[A-Za-z][A-Za-z0-9_]*|[^\s]")
WORD = re.compile(rb"[^ ]+")
NAME = r"[A-Za-z][A-Za-z0-9_]{0,31}"
NAME_RULE = "a name is a letter and then letters, digits and _, 32 bytes at most"
RESERVED = ("graph", "role", "var", "node", "edge", "int", "text", "by", "writes", "reads")
STEPS = ("start", "act", "abandon", "deliver", "craft")


def is_name(word):
    return re.fullmatch(NAME, word) is not None


def listed(words, most=12):
    """Returns the words as a list in a sentence, cut if they are many."""
    words = list(words)
    return ", ".join(words[:most]) + (f" and {len(words) - most} more" if len(words) > most else "") if words else "none"


def printable(text):
    """Returns the text with a dot for each character that a terminal would not show as one."""
    return "".join(it if it.isprintable() and not 0x200B <= ord(it) <= 0x206F else " " if it == "\t" else "." for it in text)


def sentence(told):
    """Returns a sentence of what is told, which begins with a word of English or with a sign."""
    return f"{told[0].upper()}{told[1:]}."


def meant(word, words):
    """Returns which of some words is perhaps meant by a misspelt one, as the end of a sentence."""
    near = difflib.get_close_matches(word, list(words), 1, 0.7)
    return f" (perhaps `{near[0]}` is meant)" if near else ""


def line_number(text, at):
    """Returns the number of the line in which an offset lies."""
    return text.count(b"\n", 0, at) + 1


# ---- graph texts


def statements(text):
    """Returns the statements of a graph text or of a text of parts, each as a list of tokens with their offsets."""
    found = [[]]
    for it in TOKEN.finditer(text):
        if it[0] == b";":
            found.append([])
        elif not it[0].startswith(b"#"):
            found[-1].append((it[0].decode("latin-1"), it.start()))
    return [it for it in found if len(it) > 1]


def graph_statements(text):
    """Returns the statements of the last graph of a text."""
    found = statements(text)
    first = max((at for at, it in enumerate(found) if it[0][0] == "graph"), default=0)
    return found[first:]


class Edge:
    """An edge, with its variables in the order of the text."""

    def __init__(self, source, target, writes, reads):
        self.source, self.target, self.writes, self.reads = source, target, writes, reads


class Graph:
    """What a graph text declares, in its order. Nodes have their roles, variables their types."""

    def __init__(self, text):
        self.name, self.roles, self.variables, self.nodes, self.edges = "", [], {}, {}, {}
        for it in graph_statements(text):
            words = [token for token, _ in it]
            kind, name = words[0], words[1]
            if kind == "graph":
                self.name = name
            elif kind == "role":
                self.roles.append(name)
            elif kind == "var" and len(words) > 3:
                self.variables[name] = words[3]
            elif kind == "node" and len(words) > 3:
                self.nodes[name] = words[3]
            elif kind == "edge" and len(words) > 5:
                self.edges[name] = self.edge(words)

    @staticmethod
    def edge(words):
        lists, where = {"writes": [], "reads": []}, None
        for word in words[6:]:
            if word in lists:
                where = word
            elif where:
                lists[where].append(word)
        return Edge(words[3], words[5], lists["writes"], lists["reads"])

    def is_whole(self):
        """Returns whether there is a graph, whose edges have nodes and roles."""
        ends = [it for edge in self.edges.values() for it in (edge.source, edge.target)]
        return bool(self.name and self.roles and self.nodes) and all(it in self.nodes for it in ends) and all(it in self.roles for it in self.nodes.values())

    def start(self):
        return next(iter(self.nodes))

    def leaving(self, node):
        """Returns the labels that leave a node."""
        return [label for label, edge in self.edges.items() if edge.source == node]

    def sender(self, label):
        return self.nodes[self.edges[label].source]

    def receiver(self, label):
        return self.nodes[self.edges[label].target]


def pair_of(lines):
    """Returns the graph text that the `edge` lines of a schedule make, each a label and its nodes' numbers."""
    count = max((int(it) for line in lines for it in line[1:]), default=-1) + 1
    nodes = "".join(f"node n{it}: {'ab'[it % 2]};" for it in range(min(count, 256)))
    return f"graph pair;role a;role b;{nodes}{''.join(f'edge {label}: n{one} -> n{two};' for label, one, two in lines)}".encode()


class Program:
    """A program's graph and role, or what of them there is."""

    def __init__(self, text):
        head = re.match(rb"sg-program [12]\nrole (\w+)\n", text)
        self.role = head[1].decode() if head else ""
        self.graph = Graph(text[head.end() : text.find(b"\ntable\n") + 1] if head else b"")


# ---- schedules and logs


def lines_of(text):
    """Returns each line's offset and bytes, without its line end."""
    found, at = [], 0
    for it in text.split(b"\n"):
        found.append((at, it[:-1] if it.endswith(b"\r") else it))
        at += len(it) + 1
    return found if not text.endswith(b"\n") else found[:-1]


def blocks_of(text):
    """Returns the graph texts in a schedule or in logs, each with its offset, and the number of lines up to the end of its block."""
    found, lines, at = [], lines_of(text), 0
    while at < len(lines):
        if WORD.findall(lines[at][1]) == [b"graph", b"{"]:
            first = lines[at][0] + len(lines[at][1]) + 1
            first += text[first - 1 : first] == b"\r"
            while at + 1 < len(lines) and lines[at + 1][1] != b"}":
                at += 1
            end = lines[at + 1][0] if at + 1 < len(lines) else len(text)
            found.append((text[first:end], first, at + 2))
            at += 1
        at += 1
    return found


def open_block(text):
    """Returns the number of the line that begins a block which isn't closed, if there is one."""
    begun = None
    for number, (_, line) in enumerate(lines_of(text), 1):
        if begun is not None:
            begun = None if line == b"}" else begun
        elif WORD.findall(line) == [b"graph", b"{"]:
            begun = number
    return begun


def lines_outside(text):
    """Returns the number, the offset and the words with their offsets of each line that is in no block, no comment and not blank."""
    found, in_block = [], False
    for number, (at, line) in enumerate(lines_of(text), 1):
        if in_block:
            in_block = line != b"}"
            continue
        words = [(it[0].decode("latin-1"), at + it.start()) for it in WORD.finditer(line)]
        if words and not line.startswith(b"#"):
            in_block = [it for it, _ in words] == ["graph", "{"]
            found.append((number, at, words))
    return found


class Names:
    """What the lines of a schedule or of logs before one of them declare, each with the number of its line if it is in a line of its own."""

    def __init__(self, text, upto):
        self.graphs, self.honest, self.keys, self.sessions, self.principals, edges = {}, {}, {}, {}, set(), []
        self.last = Graph(b"")
        for block, _, last in blocks_of(text):
            if last < upto:
                graph = Graph(block)
                self.graphs.setdefault(graph.name, graph)
                self.last = graph
        for number, _, words in lines_outside(text):
            said = [it for it, _ in words]
            if number >= upto:
                break
            if said[0] == "edge" and len(said) == 4 and all(it.isdigit() for it in said[2:]):
                edges.append(said[1:])
            elif said[0] == "honest" and len(said) > 1:
                self.honest.setdefault(said[1], number)
            elif said[0] == "key" and len(said) > 2:
                self.keys.setdefault(frozenset(said[1:3]), number)
            elif said[0] == "session" and len(said) > 1:
                self.sessions.setdefault(said[1], (number, said[2:]))
                self.principals |= set(said[4].split(",")) if len(said) > 4 else set()
        if edges:
            self.graphs.setdefault("pair", Graph(pair_of(edges)))

    def graph_of(self, session):
        """Returns the graph of a session, which has nothing if there is none."""
        said = self.sessions.get(session, (0, []))[1]
        return self.graphs.get(said[0] if said else None, Graph(b""))


# ---- what a file is

KINDS = {
    "graph": "a graph",
    "parts": "a text of parts, which `compose` takes",
    "program": "a program, as `compile` writes it",
    "schedule": "a schedule",
    "logs": "a log file",
    "lines": "a report, or the lines of a run",
    "keys": "a key file",
    "script": "a script",
    "ledger": "a ledger",
    "claims": "a text of claims",
}
# In the order in which they are looked for: how a text of a kind begins, or what stands in it.
SIGNS = (
    ("ledger", rb"SGLEDG01"),
    ("program", rb"sg-program [12]\r?\n"),
    ("lines", rb"\d+ (?:%b \w+ |crafted f)" % NAME.encode()),
    ("logs", rb"(?s:graph \{\r?\n.*?^\}\r?\n.*?^log \w+\r?$)"),
    ("schedule", rb" *(?:graph +\{|honest +\w+|key +\w+ \w+ |session +\w+ \w+ \d|edge +\w+ +\d+ +\d+|(?:start|act|deliver) +\w+ +\w+|craft +\w+ +from )"),
    ("claims", rb"\s*claims\s+\w+\s*;"),
    ("parts", rb"(?s:graph\s+\w+\s*;.*^\s*(?:use|graph)\s+\w+\s*[:;])"),
    ("graph", rb"\s*graph\s+\w+\s*;?\s+(?:#[^\n]*\s+)*role\s"),
    ("script", rb"\[\[ *(?:start|choice) *\]\]|(?:start|choice) *="),
    ("keys", rb"(?:me|listen) *=|\[\[ *peer *\]\]"),
)


def kind_of(text):
    """Returns what a text is by its look, a key of KINDS, or nothing."""
    bare = re.sub(rb"\A(?:[ \t]*(?:#[^\n]*)?\r?\n)+", b"", text[:4_194_304])
    return next((kind for kind, sign in SIGNS if re.match(sign, bare, re.M)), None)

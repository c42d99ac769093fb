"""Finds where a line of a schedule or of logs leaves its form, and which of its parts that is.

The forms are those of docs/formats.md (Schedule, Log file). A line is read word by word as its form has them, up to the first that doesn't fit.
"""
import re

from texts import NAME_RULE, RESERVED, STEPS, Names, is_name, lines_of, lines_outside, meant, open_block

# The forms of lines.
FORMS = {
    "a schedule": {
        "graph": "graph {",
        "edge": "edge LABEL FROM TO",
        "honest": "honest NAME",
        "key": "key NAME NAME HEX",
        "session": "session NAME GRAPH NONCE NAME,NAME,.. [v2]",
        "start": "start NAME SESSION",
        "act": "act NAME SESSION LABEL VAR=VALUE ..",
        "abandon": "abandon NAME SESSION",
        "deliver": "deliver NAME fN [flip I | cut I], or deliver NAME hex HEX",
        "craft": "craft SESSION from ROLE to ROLE [join ..] [know ..] item .. [open ..] seal SOURCE",
    },
    "logs": {
        "session": "session NAME",
        "log": "log ROLE",
        "sent": "sent LABEL TIME VAR=VALUE ..",
        "received": "received LABEL TIME VAR=VALUE ..",
        "walk": "walk STEP .., a STEP being LABEL or LABEL(VAR=VALUE,..), with or without * in front",
    },
}
# The forms of a craft's parts.
PARTS = {
    "join": "join [nonce N] [cast NAME,..]",
    "know": "know VAR=VALUE#K ..",
    "item": "item LABEL TIME [VAR=VALUE#K ..] [tag ROLE SOURCE ..]",
    "open": "open VAR=VALUE#K ..",
    "seal": "seal SOURCE",
    "SOURCE": "key NAME NAME | copy fN I ROLE | copy fN seal | zero",
}
GROUPS = ("graph", "honest", "key", "session", "step")
NUMBER = r"0|[1-9][0-9]*"


class Break(Exception):
    """Where a line leaves its form, in words, and the part of a craft that it is in."""

    def __init__(self, at, what, part=None):
        super().__init__(what)
        self.at, self.what, self.part = at, what, part


class Words:
    """The words of a line, taken one after the other."""

    def __init__(self, words):
        self.words, self.place, self.part = words, 0, None

    def peek(self):
        return self.words[self.place][0] if self.place < len(self.words) else None

    def here(self):
        """Returns the offset of the next word, or that behind the last one."""
        return self.words[self.place][1] if self.place < len(self.words) else self.words[-1][1] + len(self.words[-1][0])

    def fail(self, what, at=None):
        raise Break(self.here() if at is None else at, what, self.part)

    def take(self, what):
        """Takes a word of which this says what it is."""
        if self.place == len(self.words):
            self.fail(f"{what} is missing here")
        self.place += 1
        return self.words[self.place - 1]

    def have(self, word):
        """Takes the next word if it is this one."""
        found = self.peek() == word
        self.place += found
        return found

    def want(self, word):
        if self.peek() != word:
            self.fail(f"`{word}` must stand here")
        return self.take(word)

    def name(self, what, spoken=True):
        word, at = self.take(what)
        if not is_name(word):
            self.fail(f"{what} must stand here" + (f": {NAME_RULE}" if spoken else ""), at)
        return word, at

    def number(self, what, low, high):
        word, at = self.take(what)
        if not re.fullmatch(NUMBER, word) or not low <= int(word) <= high:
            self.fail(f"{what} must stand here, a number from {low} to {high} without a needless zero", at)
        return int(word)

    def frame(self):
        word, at = self.take("a frame, fN,")
        if not re.fullmatch(f"f({NUMBER})", word) or not 1 <= int(word[1:]) < 2**32:
            self.fail("a frame must stand here: fN, N counting the recorded frames from 1", at)

    def names(self, what, least, most):
        """Takes names with commas between them."""
        word, at = self.take(what)
        found, place = word.split(","), at
        for it in found:
            if not is_name(it):
                self.fail(f"{what} are names with a comma and no space between them; {NAME_RULE}", place)
            place += len(it) + 1
        if not least <= len(found) <= most:
            self.fail(f"{what} are {least} to {most} names, and here are {len(found)}", at)
        return found, at

    def end(self):
        """Looks that nothing is left."""
        word = self.peek()
        if word is not None:
            self.fail("a comment stands on a line of its own" if word.startswith("#") else "the line must end before this word")


# ---- values


def value_end(words, word, at, first):
    """Returns the place in a word behind the value that begins at one of its places."""
    if word[first : first + 1] != '"':
        found = re.match(r"-?[^#,)=]*", word[first:])[0]
        if not re.fullmatch("0|-?[1-9][0-9]*", found):
            words.fail("a value must stand here: digits, maybe with - in front and without a needless zero, or a text between double quotes", at + first)
        if not -(2**63) <= int(found) < 2**63:
            words.fail("an integer goes from -9223372036854775808 to 9223372036854775807", at + first)
        return first + len(found)
    place, held = first + 1, bytearray()
    while word[place : place + 1] != '"':
        it = word[place : place + 4]
        if not it:
            spaced = any('"' in later for later, _ in words.words[words.place :])
            words.fail("a space in a text is written \\x20" if spaced else "the text has no closing quote", at + place)
        if it[0] == "\\" and not re.fullmatch(r"\\x[0-9A-Fa-f]{2}", it):
            words.fail('in a text \\ begins a byte, \\x and two hexadecimal digits: a space is \\x20, " is \\x22 and \\ is \\x5c', at + place)
        if not "!" <= it[0] <= "~":
            words.fail(f"in a text this byte is written \\x{ord(it[0]):02x}", at + place)
        held.append(int(it[2:], 16) if it[0] == "\\" else ord(it[0]))
        place += 4 if it[0] == "\\" else 1
    if len(held) > 1024:
        words.fail(f"a text has at most 1,024 bytes, and this one {len(held):,}", at + first)
    try:
        held.decode("utf-8")
    except UnicodeDecodeError:
        words.fail("the bytes of this text are no UTF-8", at + first)
    return place + 1


def variable(words, word, at, form):
    """Returns the variable of VAR=VALUE, and the place of its value."""
    name, sign, _ = word.partition("=")
    if not is_name(name):
        words.fail(f"{form} must stand here", at)
    if not sign:
        words.fail(f"`=` and a value are missing: {form} must stand here", at + len(name))
    return name, len(name) + 1


def written(words):
    """Takes VAR=VALUE."""
    word, at = words.take("VAR=VALUE")
    name, first = variable(words, word, at, "VAR=VALUE")
    end = value_end(words, word, at, first)
    if end < len(word):
        words.fail("only a craft's values have #K" if word[end] == "#" else "a space must stand behind the value", at + end)
    return name, at


def committed(words):
    """Takes the VAR=VALUE#K that stand here, as many as there are."""
    found = []
    while words.peek() is not None and ("=" in words.peek() or "#" in words.peek()[1:]):
        word, at = words.take("VAR=VALUE#K")
        name, first = variable(words, word, at, "VAR=VALUE#K")
        end = value_end(words, word, at, first)
        if word[end : end + 1] != "#":
            words.fail("#K is missing behind the value: K is the step whose confounder hides it, as that of the step that wrote it", at + end)
        if not re.fullmatch(NUMBER, word[end + 1 :]) or int(word[end + 1 :]) >= 2**64:
            words.fail("K is the number of a step, in digits without a needless zero", at + end + 1)
        found.append((name, at))
    return found


def rising(words, found, order, what):
    """Looks that what is found stands in the order of the graph's declarations, each once, if all of it is declared."""
    if any(name not in order for name, _ in found):
        return
    for (one, _), (two, at) in zip(found, found[1:]):
        if order.index(one) >= order.index(two):
            told = "stands twice" if one == two else f"stands before {one} in the graph"
            words.fail(f"{what} stand in the order in which the graph declares them, each once, and {two} {told}", at)


# ---- schedules


def session(words, names):
    words.name("the session's name")
    graph, _ = words.name("the graph's name")
    words.number("the nonce", 0, 2**64 - 1)
    cast, at = words.names("the principals of a session", 2, 16)
    roles = names.graphs[graph].roles if graph in names.graphs else None
    if roles and len(roles) != len(cast):
        words.fail(f"`{graph}` has {len(roles)} roles, {' '.join(roles)}, and here are {len(cast)} principals", at)
    for it in cast:
        if cast.count(it) > 1:
            words.fail(f"a session's principals differ, and {it} stands twice", at)
    if words.peek() is not None and not words.have("v2"):
        words.fail("behind the principals stands `v2` or nothing; they have commas and no spaces between them")


def edge(words, count):
    label, at = words.name("the label")
    if label in RESERVED:
        words.fail(f"`{label}` is a reserved word", at)
    one = words.number("a node", 0, 255)
    at = words.here()
    two = words.number("a node", 0, 255)
    if one % 2 == two % 2:
        words.fail("even nodes are a's and odd ones b's, and an edge has one of each", at)
    if count >= 512:
        words.fail("there are at most 512 edges", words.words[0][1])


def key(words):
    one, _ = words.name("a principal")
    two, at = words.name("a principal")
    if one == two:
        words.fail("a key is shared by two different principals", at)
    word, at = words.take("the key")
    if not re.fullmatch("[0-9A-Fa-f]{64}", word):
        why = f"and here are {len(word)}" if re.fullmatch("[0-9A-Fa-f]*", word) else "0-9, a-f and A-F"
        words.fail(f"a key has 64 hexadecimal digits, {why}", at)


def deliver(words):
    words.name("a principal")
    if words.have("hex"):
        word, at = words.take("the bytes")
        if not re.fullmatch("([0-9A-Fa-f]{2})+", word):
            words.fail("bytes are pairs of hexadecimal digits, one pair at least", at)
        return
    words.frame()
    if words.have("flip") or words.have("cut"):
        words.number("an offset", 0, 2**32 - 1)
    elif words.peek() is not None:
        words.fail("behind the frame stands `flip I`, `cut I` or nothing")


def source(words, graph):
    """Takes where a tag comes from."""
    before, words.part = words.part, "SOURCE"
    if words.have("key"):
        one, _ = words.name("a principal, not a role,")
        two, at = words.name("a second principal")
        if one == two:
            words.fail("a key is shared by two different principals", at)
    elif words.have("copy"):
        words.frame()
        if not words.have("seal"):
            words.number("the number of an item, counted from 1, or `seal`", 0, 2**32 - 1)
            words.name("the role of a tag")
    elif not words.have("zero"):
        told = "SOURCE is missing here" if words.peek() is None else "a SOURCE begins with `key`, `copy` or `zero`"
        words.fail(told)
    words.part = before


def item(words, graph):
    words.part = "item"
    words.name("a label")
    words.number("the step's time", 1, 1_000_000)
    values, tags = committed(words), []
    rising(words, values, list(graph.variables), "the variables of an item")
    while words.have("tag"):
        tags.append(words.name("the role of a tag"))
        source(words, graph)
    rising(words, tags, graph.roles, "the roles of an item's tags")
    if len(values) > 32 or len(tags) > 14:
        words.fail("an item has at most 32 values and 14 tags")


def craft(words, names):
    """Takes a craft: where it breaks tells its part too."""
    said, _ = words.name("the session")
    graph = names.graph_of(said)
    words.want("from")
    one, _ = words.name("the role of the sender")
    words.want("to")
    two, at = words.name("the role of the receiver")
    if one == two:
        words.fail("sender and receiver are different roles", at)
    if words.have("join"):
        words.part = "join"
        if words.have("nonce"):
            words.number("the nonce", 0, 2**64 - 1)
        if words.have("cast"):
            words.names("the principals after `cast`", 2, 16)
    for group in ("know", "open"):
        if words.have(group):
            words.part = group
            found = committed(words)
            if not found:
                words.fail(f"VAR=VALUE#K must stand behind `{group}`")
            rising(words, found, list(graph.variables), f"the variables after `{group}`")
            if len(found) > 32:
                words.fail("there are at most 32 values in a list")
        count = 0
        while group == "know" and words.have("item"):
            item(words, graph)
            count += 1
        if group == "know" and not count:
            words.fail("an item must stand here, behind `join` and `know` if they are there")
        if count > 65_535:
            words.fail("a craft has at most 65,535 items")
    if not words.have("seal"):
        before = f", or what goes on with `{words.part}`" if words.part else ""
        order = "the parts stand in the order join, know, item, open, seal, each once but item"
        words.fail(f"`seal SOURCE` must stand at the end{before}; {order}")
    words.part = "seal"
    source(words, graph)
    words.end()


def group_of(first):
    return GROUPS.index("step" if first in STEPS else "graph" if first == "edge" else first)


def step_of_schedule(words, names, before):
    """Reads a line of a schedule up to where it breaks."""
    first, at = words.take("a word")
    if first not in FORMS["a schedule"]:
        raise Break(at, f"no line begins so{meant(first, FORMS['a schedule'])}; lines begin with {', '.join(FORMS['a schedule'])}")
    later = next(((number, it[0][0]) for number, _, it in before if it[0][0] in FORMS["a schedule"] and group_of(it[0][0]) > group_of(first)), None)
    if later:
        raise Break(at, f"`{first}` stands behind `{later[1]}` (line {later[0]}): first come graphs, then honest, key, session, and then the steps")
    if first == "graph":
        words.want("{")
    elif first == "edge":
        edge(words, sum(it[0][0] == "edge" for _, _, it in before))
    elif first == "honest":
        words.name("a principal")
    elif first == "key":
        key(words)
    elif first == "session":
        session(words, names)
    elif first == "deliver":
        deliver(words)
    elif first == "craft":
        craft(words, names)
    else:
        words.name("a principal")
        words.name("a session")
        if first == "act":
            words.name("a label")
            while words.peek() is not None and not words.peek().startswith("#"):
                written(words)
    words.end()


# ---- logs


def differ(found):
    """Returns whether names are different ones. If in logs they aren't, that is no fault of form."""
    return len({name for name, _ in found}) == len(found)


def step_of_walk(words, variables):
    """Takes a step of a walk."""
    word, at = words.take("a step")
    given = []
    found = re.fullmatch(r"(\*?)([^(]*)(\(.*)?", word)
    if not is_name(found[2]):
        words.fail(f"a step is a label, with or without * in front; {NAME_RULE}", at)
    place = len(found[1]) + len(found[2])
    if place == len(word):
        return
    while True:
        name = re.match(r"\w*", word[place + 1 :])[0]
        if not is_name(name) or word[place + 1 + len(name) : place + 2 + len(name)] != "=":
            words.fail("behind a label stands (VAR=VALUE,..) with no space", at + place + 1)
        first = place + 2 + len(name)
        given.append((name, at + place + 1))
        place = first + 1 if word[first : first + 1] == "?" else value_end(words, word, at, first)
        if word[place:] == ")":
            return rising(words, given if differ(given) else [], variables, "the variables of a step")
        if word[place : place + 1] != ",":
            words.fail("here stands `,` and a further VAR=VALUE, or `)` as the step's end", at + place)


class Place:
    """Where in a log file a line stands: the roles with a log in this session, and whether it has a walk."""

    def __init__(self, before):
        self.session, self.logs, self.walk = None, [], False
        for _, _, words in before:
            said = [it for it, _ in words]
            if said[0] == "session":
                self.session, self.logs, self.walk = said[1] if len(said) > 1 else "", [], False
            elif said[0] == "log" and len(said) > 1:
                self.logs.append(said[1])
            self.walk = self.walk or said[0] == "walk"

    def lacks_walk(self, graph):
        """Returns the roles without a log, if their steps are told nowhere."""
        return [it for it in graph.roles if it not in self.logs] if self.session is not None and not self.walk else []


def line_of_logs(words, names, before):
    """Reads a line of logs up to where it breaks."""
    first, at = words.take("a word")
    if not before and first != "graph":
        raise Break(at, "a log file begins with the graph, in a block `graph {` .. `}`")
    place = Place(before)
    if before and first not in FORMS["logs"]:
        raise Break(at, f"no line begins so{meant(first, FORMS['logs'])}; behind the graph lines begin with {', '.join(FORMS['logs'])}")
    lacks = place.lacks_walk(names.last) if first == "session" else []
    if lacks:
        raise Break(at, f"before the next session a line `walk` is missing, since {' '.join(lacks)} has no log in session {place.session}")
    if first in ("log", "sent", "received", "walk") and place.session is None:
        raise Break(at, f"a line `session` must stand before `{first}`")
    if first in ("sent", "received") and not place.logs:
        raise Break(at, f"a line `log` must stand before `{first}`")
    if place.walk and first != "session":
        raise Break(at, "a session ends with its line `walk`")
    if first == "walk" and not place.lacks_walk(names.last):
        raise Break(at, "each role has a log here: the walk is not told")
    if first == "graph":
        words.want("{")
    elif first == "session":
        words.name("the session's name")
    elif first == "log":
        words.name("a role")
    elif first == "walk":
        while words.peek() is not None:
            step_of_walk(words, list(names.last.variables))
        return
    else:
        words.name("a label")
        words.number("the event's time", 1, 1_000_000)
        found = []
        while words.peek() is not None and not words.peek().startswith("#"):
            found.append(written(words))
        rising(words, found if differ(found) else [], list(names.last.variables), "the variables of an event")
    words.end()


# ---- both


def break_of(text, number, kind):
    """Returns where a line that is of no form breaks, as a Break, if that is found."""
    lines, outside = lines_of(text), lines_outside(text)
    before = [it for it in outside if it[0] < number]
    if number > len(lines) or not any(it[0] == number for it in outside) and kind == "logs":
        lacks = Place(before).lacks_walk(Names(text, number).last) if kind == "logs" else []
        if not before:
            return Break(0, "a log file begins with the graph, in a block `graph {` .. `}`")
        told = f"a line `walk` is missing at the end, since {' '.join(lacks)} has no log in session {Place(before).session}"
        return Break(len(text), told) if lacks else None
    at, line = lines[number - 1]
    strange = re.search(rb"[^ -~\t]", line)
    if strange and (line[strange.start()] >= 0x80 or line[strange.start()] == 13):
        byte = line[strange.start()]
        told = "a carriage return stands at a line's end alone" if byte == 13 else f"a byte that is not ASCII, which no line may hold, also no comment; in a text it is written \\x{byte:02x}"
        return Break(at + strange.start(), told)
    words = next((it for found, _, it in outside if found == number), None)
    begun = open_block(text)
    if begun is not None and number == len(lines):
        return Break(at, f"the block that line {begun} begins isn't closed: a line with `}}` alone is missing")
    if words is None:
        return None
    if b"\t" in line:
        return Break(at + line.index(b"\t"), "words have spaces between them, and no tabs")
    if words[0][0].startswith("#"):
        return Break(words[0][1], "a comment begins with the line's first byte")
    try:
        (step_of_schedule if kind == "a schedule" else line_of_logs)(Words(words), Names(text, number), before)
    except Break as it:
        return it
    return Break(words[0][1], "the frame that is made would have more than 60,000 bytes") if words[0][0] == "craft" else None

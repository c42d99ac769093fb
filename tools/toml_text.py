"""Reads TOML 1.0, and tells where each key and value stands, or where a text stops being TOML. Offsets count bytes.

A table is a dict from its keys to a Found each, an array a list of Found. Dates and times are texts of the class Moment.
"""
import re

BARE = re.compile(r"[A-Za-z0-9_-]+")
MOMENT = re.compile(r"\d{4}-\d\d-\d\d(?:[Tt ]\d\d:\d\d:\d\d(?:\.\d+)?(?:[Zz]|[+-]\d\d:\d\d)?)?|\d\d:\d\d:\d\d(?:\.\d+)?")
INTEGER = re.compile(r"[+-]?(?:0|[1-9](?:_?\d)*)|0x[0-9A-Fa-f](?:_?[0-9A-Fa-f])*|0o[0-7](?:_?[0-7])*|0b[01](?:_?[01])*")
FLOAT = re.compile(r"[+-]?(?:(?:0|[1-9](?:_?\d)*)(?:\.\d(?:_?\d)*)?(?:[eE][+-]?\d(?:_?\d)*)?|inf|nan)")
ESCAPES = {"b": "\b", "t": "\t", "n": "\n", "f": "\f", "r": "\r", '"': '"', "\\": "\\"}


class NotToml(Exception):
    """Where a text stops being TOML, and why."""

    def __init__(self, at, what):
        super().__init__(what)
        self.at, self.what = at, what


class Moment(str):
    """A date or a time."""


class Found:
    """A value, with the offsets of its key, or of its own begin if it has none, and of itself."""

    def __init__(self, value, key_at, at, closed=True):
        self.value, self.key_at, self.at = value, key_at, at
        # (whether no header may add to it, as to what stands behind a `=`)
        self.closed = closed


class Reader:
    """Reads a text character by character."""

    def __init__(self, text):
        self.text, self.at = text, 0
        self.root = {}

    def fail(self, what, at=None):
        raise NotToml(self.at if at is None else at, what)

    def next(self, count=1):
        return self.text[self.at : self.at + count]

    def blank(self):
        while self.next() in (" ", "\t"):
            self.at += 1

    def comment(self):
        """Passes over a comment, up to the line end."""
        if self.next() == "#":
            end = re.compile(r"[\n\r]|\Z").search(self.text, self.at).start()
            bad = re.compile("[\0-\x08\x0b-\x1f\x7f]").search(self.text, self.at, end)
            if bad:
                self.fail("a comment may not hold this byte", bad.start())
            self.at = end

    def line_end(self):
        """Takes the end of a line; returns whether there was one."""
        for it in ("\r\n", "\n"):
            if self.next(len(it)) == it:
                self.at += len(it)
                return True
        return False

    def spaces(self):
        """Passes over spaces, comments and line ends."""
        self.blank()
        self.comment()
        while self.line_end():
            self.blank()
            self.comment()

    def key(self):
        """Takes a key with its dots; returns its parts, each with its offset."""
        parts = []
        while True:
            self.blank()
            at = self.at
            if self.next() in ('"', "'"):
                if self.next(3) in ('"""', "'''"):
                    self.fail("a key is written in one line")
                parts.append((self.quoted(self.next()), at))
            else:
                found = BARE.match(self.text, self.at)
                if not found:
                    self.fail("a key must stand here" if parts else "a line is `KEY = VALUE`, `[TABLE]` or `[[TABLE]]`, and a key has letters, digits, _ and -")
                self.at = found.end()
                parts.append((found[0], at))
            self.blank()
            if self.next() != ".":
                return parts
            self.at += 1

    # ---- texts

    def quoted(self, sign):
        """Takes a text of one line."""
        first, held = self.at, []
        self.at += 1
        while self.next() != sign:
            it = self.next()
            if it in ("", "\n", "\r"):
                self.fail(f"the text that begins here has no closing {sign}", first)
            held.append(self.escape() if it == "\\" and sign == '"' else self.plain())
        self.at += 1
        return "".join(held)

    def plain(self):
        it = self.next()
        if it < " " and it != "\t" or it == "\x7f":
            self.fail("a text may not hold this byte as it is")
        self.at += 1
        return it

    def escape(self):
        """Takes what stands behind a backslash."""
        found = re.compile(r"\\(?:([btnfr\"\\])|u([0-9A-Fa-f]{4})|U([0-9A-Fa-f]{8}))").match(self.text, self.at)
        code = int(found[2] or found[3], 16) if found and not found[1] else 0
        if not found or code > 0x10FFFF or 0xD800 <= code < 0xE000:
            self.fail(r"behind \ stands one of b t n f r \ and the quote, or u and four, or U and eight hexadecimal digits of a character")
        self.at = found.end()
        return ESCAPES[found[1]] if found[1] else chr(code)

    def long(self, sign):
        """Takes a text of several lines."""
        first, held = self.at, []
        self.at += 3
        self.line_end()
        while self.next(3) != sign * 3:
            if not self.next():
                self.fail(f"the text that begins here has no closing {sign * 3}", first)
            folded = re.compile(r"\\[ \t]*\r?\n[ \t\r\n]*").match(self.text, self.at) if sign == '"' else None
            if folded:
                self.at = folded.end()
            elif self.line_end():
                held.append("\n")
            else:
                held.append(self.escape() if self.next() == "\\" and sign == '"' else self.plain())
        self.at += 3
        for _ in range(2):
            # (two more are the text's own last ones)
            if self.next() == sign:
                held.append(sign)
                self.at += 1
        return "".join(held)

    # ---- values

    def value(self):
        """Takes a value."""
        it = self.next()
        if it in ('"', "'") and it:
            return self.long(it) if self.next(3) == it * 3 else self.quoted(it)
        if it == "[":
            return self.array()
        if it == "{":
            return self.inline()
        word = re.compile(r"[^\s,\]}#]*").match(self.text, self.at)[0]
        for true, name in ((True, "true"), (False, "false")):
            if word == name:
                self.at += len(word)
                return true
        moment = MOMENT.match(self.text, self.at)
        if moment and moment.end() >= self.at + len(word):
            self.at = moment.end()
            return Moment(moment[0])
        for form, make in ((INTEGER, lambda digits: int(digits.replace("_", ""), 0)), (FLOAT, lambda digits: float(digits.replace("_", "")))):
            if form.fullmatch(word):
                self.at += len(word)
                return make(word)
        if re.match(r"[+-]?\d", word):
            self.fail("this is no number: digits stand without a needless zero, and a text, as an address or a key, between quotes")
        self.fail("a value must stand here" + ("; a text stands between quotes" if re.match(r"\w", word) else ""))

    def array(self):
        first, held = self.at, []
        self.at += 1
        while True:
            self.spaces()
            if self.next() == "]":
                self.at += 1
                return held
            if not self.next():
                self.fail("the array that begins here has no closing ]", first)
            at = self.at
            held.append(Found(self.value(), at, at))
            self.spaces()
            if self.next() == ",":
                self.at += 1
            elif self.next() != "]":
                self.fail("in an array stands `,` or `]` behind a value" if self.next() else "the array that begins here has no closing ]", None if self.next() else first)

    def inline(self):
        first, held = self.at, {}
        self.at += 1
        self.blank()
        if self.next() == "}":
            self.at += 1
            return held
        while True:
            self.pair(held)
            self.blank()
            if self.next() == "}":
                self.at += 1
                return held
            if self.next() != ",":
                ended = self.next() in ("", "\n", "\r")
                self.fail("the table that begins here has no closing } in its line" if ended else "in a table within braces stands `,` or `}` behind a value", first if ended else None)
            self.at += 1

    # ---- lines

    def pair(self, table):
        """Takes KEY = VALUE into a table."""
        parts = self.key()
        if self.next() != "=":
            self.fail("`=` must stand behind a key")
        self.at += 1
        self.blank()
        at = self.at
        if self.next() in ("", "\n", "\r", "#"):
            self.fail("a value is missing here")
        for name, place in parts[:-1]:
            table = self.within(table, name, place, True)
        name, place = parts[-1]
        value = self.value()
        if name in table:
            self.twice(name, place, table[name])
        table[name] = Found(value, place, at)

    def twice(self, name, place, first):
        self.fail(f"`{name}` stands twice in its table, first in line {self.text.count(chr(10), 0, first.key_at) + 1}", place)

    def within(self, table, name, place, dotted):
        """Returns the table of this name in a table; it is made if there is none."""
        if name not in table:
            table[name] = Found({}, place, place, closed=dotted)
        it = table[name]
        inner = it.value[-1].value if not dotted and isinstance(it.value, list) and it.value and not it.closed else it.value
        if not isinstance(inner, dict) or it.closed and not dotted:
            self.fail(f"`{name}` has a value already, in line {self.text.count(chr(10), 0, it.key_at) + 1}, and no table is added to it", place)
        return inner

    def header(self):
        """Takes [TABLE] or [[TABLE]]; returns the table that it begins."""
        first, many = self.at, self.next(2) == "[["
        self.at += 1 + many
        parts, table = self.key(), self.root
        if self.next(1 + many) != ("]]" if many else "]"):
            self.fail(f"the heading that begins here has no closing {']]' if many else ']'}", first)
        self.at += 1 + many
        for name, place in parts[:-1]:
            table = self.within(table, name, place, False)
        name, place = parts[-1]
        if many:
            it = table.setdefault(name, Found([], place, first, closed=False))
            if not isinstance(it.value, list) or it.closed:
                self.twice(name, place, it)
            it.value.append(Found({}, first, first))
            return it.value[-1].value
        it = table.get(name)
        if it is None or isinstance(it.value, dict) and not it.closed:
            table[name] = Found(it.value if it else {}, place, first)
            return table[name].value
        self.twice(name, place, it)

    def read(self):
        table = self.root
        while True:
            self.spaces()
            if not self.next():
                return self.root
            if self.next() == "[":
                table = self.header()
            else:
                self.pair(table)
            self.blank()
            self.comment()
            if self.next() and not self.line_end():
                self.fail("the line must end here")


def read(text):
    """Returns the root table of a TOML text, given as bytes. A text that isn't TOML raises NotToml."""
    try:
        said = text.decode("utf-8")
    except UnicodeDecodeError as fault:
        raise NotToml(fault.start, "a byte that is no UTF-8") from None
    shift = len(said) != len(text)
    behind = (lambda at: len(said[:at].encode())) if shift else (lambda at: at)
    try:
        root = Reader(said).read()
    except NotToml as it:
        raise NotToml(behind(it.at), it.what) from None
    if shift:
        move(root, behind)
    return root


def move(value, behind):
    """Turns the offsets in a value from characters to bytes."""
    for it in value.values() if isinstance(value, dict) else value if isinstance(value, list) else ():
        it.key_at, it.at = behind(it.key_at), behind(it.at)
        move(it.value, behind)

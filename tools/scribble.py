"""Reads global protocols of Scribble and νScr into a tree; tools/from-scribble makes graphs of them.

`read` gives a `Source`. It raises `Refused`, with the place and a sentence, at the first token from the left that has no place in a protocol, or that
belongs to a part of these languages of which session graphs have nothing. Names are not looked up here.

    source    = [module] {import | declaration | protocol}
    module    = "module" NAME {"." NAME} ";"
    import    = ("import" | "from") .. ";"
    declared  = ("type" | "typedef" | "data" | "sig") "<" NAME ">" STRING "from" STRING "as" NAME ";"
    protocol  = ["aux"] "global" "protocol" NAME "(" "role" NAME {"," "role" NAME} ")" block
    block     = "{" statement {statement} "}"
    statement = NAME ["(" [payload {"," payload}] ")"] "from" NAME "to" NAME {"," NAME} ";"
              | "choice" "at" NAME block {"or" block} | "rec" NAME block | "continue" NAME ";"
              | "do" NAME "(" NAME {"," NAME} ")" ";" | "par" block {"and" block}
    payload   = [NAME ":"] NAME {"." NAME}

No word is reserved: `data` or `type` may be a label too, if `(` or `from` follows it. Comments are `//`, `/* */` and `(* *)`, and the last kind
may have others inside. A place is an offset in the text, in characters.
"""
import re
from collections import namedtuple

DEEPEST = 100

Token = namedtuple("Token", "kind text at")
Word = namedtuple("Word", "text at")
Payload = namedtuple("Payload", "name kind at")
Message = namedtuple("Message", "at label payloads sender receiver is_first")
Choice = namedtuple("Choice", "at role branches")
Rec = namedtuple("Rec", "at name body")
Continue = namedtuple("Continue", "at name")
Do = namedtuple("Do", "at protocol roles")
Par = namedtuple("Par", "at branches")
Protocol = namedtuple("Protocol", "at name is_aux roles body fault")
Declared = namedtuple("Declared", "word means at")
Source = namedtuple("Source", "protocols types signatures")

# Statements and modifiers of which session graphs have nothing, by their first word: why, and what to do.
MISSING = {
    "interruptible": "a session graph has no part that may be interrupted: let one role choose, by `choice at`, whether the part goes on",
    "connect": "no message opens a connection: all roles are in the session's cast from its start, so take the statement out",
    "unordered": "messages in any order aren't there in session graphs: write them in one order",
    "spawn": "no session starts another: write the protocol's messages here, by `do`",
    "new": "no role is new in a session: declare it with the other roles",
}
MISSING.update(dict.fromkeys(["disconnect", "wrap", "accept", "request"], MISSING["connect"]))


class Refused(Exception):
    """What keeps a text from being a graph: the place, and a sentence that says why and what to do."""

    def __init__(self, at, sentence):
        super().__init__(sentence)
        self.at, self.sentence = at, sentence


# Tokens.

SPACE = re.compile(r"(?:[ \t\r\n\f\v]|//[^\n]*|/\*.*?\*/)*", re.S)
TOKEN = re.compile(r"(?P<name>[A-Za-z_][A-Za-z0-9_]*)|(?P<string>\"[^\"\n]*\")|(?P<mark>[(){}<>:;,.@\[\]=])")
BOUND = re.compile(r"\(\*|\*\)")


def after_space(text, at):
    """The place behind spaces and comments, or the place of a comment that has no end."""
    while True:
        at = SPACE.match(text, at).end()
        if not text.startswith("(*", at):
            return at
        depth, inside = 0, at
        while depth or inside == at:
            bound = BOUND.search(text, inside)
            if not bound:
                return at
            depth += 1 if bound[0] == "(*" else -1
            inside = bound.end()
        at = inside


def character(text):
    """A character as a sentence names it."""
    if 0xDC80 <= ord(text) <= 0xDCFF:
        return f"the byte 0x{ord(text) - 0xDC00:02x}"
    return f"`{text}`" if text.isprintable() else f"the character U+{ord(text):04X}"


def tokens(text):
    """All tokens; the last one is the end, behind the last word, or the first place where no token stands."""
    at, end = after_space(text, 0), 0
    while at < len(text):
        opens = text.startswith(("/*", "(*"), at)
        found = TOKEN.match(text, at)
        if opens or not found:
            yield Token("bad", "a comment that isn't closed" if opens else character(text[at]), at)
            return
        yield Token(found.lastgroup, found[0], at)
        end = found.end()
        at = after_space(text, end)
    yield Token("end", "the text's end", end)


# The tree.


class Reader:
    """Takes a source token by token."""

    def __init__(self, text):
        self.tokens, self.next, self.depth = list(tokens(text)), 0, 0

    def look(self, further=0):
        """The next token, or one further on."""
        return self.tokens[min(self.next + further, len(self.tokens) - 1)]

    def refuse(self, wanted):
        """Refuses the next token, if something else is wanted."""
        token = self.look()
        here = token.text if token.kind in ("bad", "end") else f"`{token.text}`"
        raise Refused(token.at, f"{wanted}, and here is {here}")

    def take(self, text, wanted):
        """Takes a word or a mark."""
        token = self.look()
        if token.text != text or token.kind not in ("name", "mark"):
            self.refuse(wanted)
        self.next += 1
        return token

    def is_next(self, text):
        """Whether the next token is this word or mark; if so it is taken."""
        found = self.look().text == text and self.look().kind in ("name", "mark")
        self.next += found
        return found

    def kind(self, kind, wanted):
        """Takes a token of a kind."""
        token = self.look()
        if token.kind != kind:
            self.refuse(wanted)
        self.next += 1
        return Word(token.text, token.at)

    def name(self, wanted):
        """Takes a name."""
        return self.kind("name", wanted)

    def dotted(self, wanted):
        """Takes names with dots between them."""
        first = self.name(wanted)
        text = first.text
        while self.is_next("."):
            text += "." + self.name("a name follows a dot").text
        return Word(text, first.at)

    def source(self):
        """The whole text."""
        source = Source([], {}, {})
        if self.look().text == "module":
            self.next += 1
            self.dotted("a module has a name")
            self.take(";", "`;` ends the module's line")
        while self.look().kind != "end":
            word = self.look().text
            if word in ("type", "typedef", "data", "sig"):
                self.declaration(source)
            elif word in ("import", "from"):
                self.imported()
            else:
                source.protocols.append(self.protocol())
        if not source.protocols:
            self.refuse("a source has a `global protocol`")
        return source

    def declaration(self, source):
        """A type or a signature of another language."""
        at = self.look().at
        table = source.signatures if self.look().text == "sig" else source.types
        self.next += 1
        self.take("<", "a declaration has its language in `<` and `>`")
        self.name("a declaration has its language in `<` and `>`")
        self.take(">", "a declaration has its language in `<` and `>`")
        means = self.kind("string", "what is declared is named in that language, in quotes").text[1:-1]
        self.take("from", "`from` stands between what is declared and its file")
        self.kind("string", "the file of what is declared stands in quotes")
        self.take("as", "`as` stands before the name that is declared")
        name = self.name("a declaration declares a name")
        if name.text in source.types or name.text in source.signatures:
            raise Refused(name.at, f"{name.text} is declared already: give it another name")
        table[name.text] = Declared(name.text, means, at)
        self.take(";", "`;` ends a declaration")

    def imported(self):
        """An import, which is passed over: what it brings is unknown where it is used."""
        while not self.is_next(";"):
            if self.look().kind != "name" and self.look().text != ".":
                self.refuse("an import is of names and ends with `;`")
            self.next += 1

    def protocol(self):
        """A protocol."""
        at, is_aux, fault = self.look().at, False, None
        while self.look().text in ("aux", "explicit"):
            is_aux = is_aux or self.look().text == "aux"
            if self.look().text == "explicit":
                fault = Refused(self.look().at, "an explicit protocol opens its connections by messages, and a session's roles are all in its cast "
                                "from the start: take `explicit` out")
            self.next += 1
        if self.look().text == "local":
            raise Refused(self.look().at, "a local protocol is one role's part: give the global protocol, which `compile` projects to each role")
        if self.look().text == "nested":
            raise Refused(self.look().at, "no session starts another: make the nested protocol a global one, and write `do` for `calls`")
        self.take("global", "a source goes on with `global protocol`")
        self.take("protocol", "`protocol` follows `global`")
        name = self.name("a protocol has a name")
        if self.look().text == "<":
            fault = fault or Refused(self.look().at, "a protocol with parameters isn't converted: write one for each use, with its own names")
            while not self.is_next(">"):
                if self.look().kind != "name" and self.look().text not in ("<", ","):
                    self.refuse("parameters are names and end with `>`")
                self.next += 1
        self.take("(", "a protocol's roles stand in parentheses")
        roles = [self.role()]
        while self.is_next(","):
            roles.append(self.role())
        if self.look().text == ";":
            raise Refused(self.look().at, MISSING["new"])
        self.take(")", "`,` or `)` follows a role")
        return Protocol(at, name, is_aux, roles, self.block(), fault)

    def role(self):
        """A role that a protocol declares."""
        self.take("role", "each role has the word `role` before it")
        return self.name("a role has a name")

    def block(self):
        """A block: its statements."""
        opened = self.take("{", "a block begins with `{`").at
        self.depth += 1
        if self.depth > DEEPEST:
            raise Refused(opened, f"blocks stand more than {DEEPEST} deep in each other: make a protocol of the inner ones, and call it by `do`")
        if self.look().text == "}":
            raise Refused(self.look().at, "this block is empty: begin it with a message, or take it out")
        statements = []
        while not self.is_next("}"):
            if self.look().kind == "end":
                raise Refused(opened, "this block isn't closed: write `}` at its end")
            statements += self.statement()
        self.depth -= 1
        return statements

    def blocks(self, between):
        """Blocks with a word between them."""
        found = [self.block()]
        while self.is_next(between):
            found.append(self.block())
        return found

    def statement(self):
        """A statement, as a list: a message to several roles is several messages."""
        first, second = self.look(), self.look(1)
        if first.kind == "name" and second.text not in ("(", "from"):
            forms = {"choice": self.choice, "rec": self.rec, "continue": self.repeat, "do": self.call, "par": self.parallel}
            if first.text in forms:
                self.next += 1
                return [forms[first.text](first.at)]
            if first.text in MISSING:
                raise Refused(first.at, MISSING[first.text])
            if second.text == "calls":
                raise Refused(second.at, MISSING["spawn"])
        return self.messages()

    def choice(self, at):
        """A choice, behind its word."""
        self.take("at", "`at` and a role follow `choice`")
        return Choice(at, self.name("`at` and a role follow `choice`"), self.blocks("or"))

    def rec(self, at):
        """A recursion, behind its word."""
        name = self.name("a recursion has a name")
        if self.look().text in ("[", "<", "("):
            raise Refused(self.look().at, "a recursion has no values of its own: send what it needs as payloads of messages")
        return Rec(at, name, self.block())

    def repeat(self, at):
        """A `continue`, behind its word."""
        name = self.name("`continue` names a recursion")
        if self.look().text in ("[", "<", "("):
            raise Refused(self.look().at, "a recursion has no values of its own: send what it needs as payloads of messages")
        self.take(";", "`;` ends a `continue`")
        return Continue(at, name)

    def call(self, at):
        """A `do`, behind its word."""
        protocol = self.dotted("`do` names a protocol")
        if self.look().text == "<":
            raise Refused(self.look().at, "a protocol with parameters isn't converted: write one for each use, with its own names")
        self.take("(", "the roles of a `do` stand in parentheses")
        roles = [self.name("the roles of a `do` stand in parentheses")]
        while self.is_next(","):
            roles.append(self.name("a role follows `,`"))
        self.take(")", "`,` or `)` follows a role")
        self.take(";", "`;` ends a `do`")
        return Do(at, protocol, roles)

    def parallel(self, at):
        """Parallel parts, behind their word: they are read, and refused where the protocol is converted."""
        return Par(at, self.blocks("and"))

    def messages(self):
        """A message, once for each of its receivers."""
        form = "a message is LABEL(PAYLOAD, ..) from ROLE to ROLE;"
        if self.look().text == "(":
            raise Refused(self.look().at, "this message has no label: write one before `(`")
        label = self.name(f"here is wanted a message, `choice`, `rec`, `continue` or `do`; {form}")
        payloads = self.payloads() if self.is_next("(") else None
        if self.look().text == "connect":
            raise Refused(self.look().at, "no message opens a connection: all roles are in the session's cast from its start, so write `from` for "
                          "`connect`")
        self.take("from", form)
        sender = self.name(form)
        self.take("to", form)
        receivers = [self.name(form)]
        while self.is_next(","):
            receivers.append(self.name("a role follows `,`"))
        self.annotation()
        self.take(";", "`;` ends a message")
        self.annotation()
        return [Message(label.at, label, payloads, sender, receiver, place == 0) for place, receiver in enumerate(receivers)]

    def annotation(self):
        """Refuses an assertion beside a message."""
        if self.look().text == "@":
            raise Refused(self.look().at, "a session graph states nothing of values: take the assertion out")

    def payloads(self):
        """Payloads, behind `(`, up to `)`."""
        found = []
        while not self.is_next(")"):
            if found:
                self.take(",", "`,` or `)` follows a payload")
            found.append(self.payload())
        return found

    def payload(self):
        """A payload: its name, if it has one, and its type."""
        first = self.dotted("a payload is TYPE or NAME: TYPE")
        name, kind = None, first
        if "." not in first.text and self.is_next(":"):
            name, kind = first, self.dotted("a payload is TYPE or NAME: TYPE")
        follows = self.look().text
        if follows == "@":
            raise Refused(first.at, "no session is handed to another role: let the roles of the other protocol be roles of this one")
        if follows == "{":
            raise Refused(self.look().at, "a session graph states nothing of values: take the refinement out")
        if follows in ("<", "["):
            raise Refused(kind.at, f"{kind.text}{follows}.. is neither an integer nor a string: send its elements one by one, or as one string")
        return Payload(name, kind, first.at)


def read(text):
    """The tree of a source."""
    return Reader(text).source()

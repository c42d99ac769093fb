"""Reads the lines that a principal wrote while it ran, as docs/formats.md has them (Report, A run)."""
import re

NAME = r"[A-Za-z][A-Za-z0-9_]*"
VALUES = r'((?: [A-Za-z][A-Za-z0-9_]*=(?:-?\d+|"[^" ]*"))*)'
FORMS = (
    ("started", re.compile(rf"(\d+) ({NAME}) ({NAME}) started as ({NAME})")),
    ("sent", re.compile(rf"(\d+) ({NAME}) ({NAME}) sent ({NAME}) time (\d+) to ({NAME}) as f(\d+){VALUES}")),
    ("received", re.compile(rf"(\d+) ({NAME}) ({NAME}) received ({NAME}) time (\d+){VALUES}")),
    ("abandoned", re.compile(rf"(\d+) ({NAME}) ({NAME}) abandoned")),
    ("refused", re.compile(rf"(\d+) ({NAME}) refused ([a-z].*)")),
)


class NoLines(Exception):
    """Why a file isn't the lines of one run of one principal."""


class Line:
    """A line: its number in the file, its own number, who wrote it and of what kind it is. What it isn't of has nothing: session, word (a role, a label
    or a refusal's reason), time, peer, values as they are written."""

    def __init__(self, place, kind, found):
        self.place, self.kind, self.number, self.name = place, kind, int(found[1]), found[2]
        self.session = None if kind == "refused" else found[3]
        self.word = None if kind == "abandoned" else found[3 if kind == "refused" else 4]
        self.time = int(found[5]) if kind in ("sent", "received") else None
        self.peer = found[6] if kind == "sent" else None
        self.values = found[8 if kind == "sent" else 6].split() if self.time is not None else []


def read(path):
    """Returns the lines of a file, which are those of one principal from one run. Another file raises NoLines."""
    with open(path, "rb") as file:
        text = file.read().decode("latin-1")
    if text and not text.endswith("\n"):
        raise NoLines(f"{path}: the last line has no end, so it may be cut, even in the midst of a number: take it out (docs/auditing.md says what a missing line means)")
    found = []
    for place, line in enumerate(text.split("\n")[:-1], 1):
        kind, said = next(((kind, said) for kind, form in FORMS for said in [form.fullmatch(line)] if said), (None, None))
        if kind is None:
            raise NoLines(f"{path}, line {place}: no line that a principal writes: {line[:60]}{'...' if len(line) > 60 else ''}")
        it = Line(place, kind, said)
        if found and it.name != found[0].name:
            raise NoLines(f"{path}, line {place}: this line is {it.name}'s, and those above are {found[0].name}'s: a file is to have the lines of one principal")
        if found and it.number <= found[-1].number:
            raise NoLines(f"{path}, line {place}: the number {it.number} comes after {found[-1].number}: a file is to have the lines of one run, since each run numbers its sessions anew")
        found.append(it)
    return found


def of_session(path, found, session):
    """Returns the lines of a session, which must be among those that were found in a file."""
    own = [it for it in found if it.session == session]
    if not own:
        there = list(dict.fromkeys(it.session for it in found if it.session))
        raise NoLines(f"{path}: no line is of a session {session}; the lines are of {', '.join(there[:12]) + (' ..' if len(there) > 12 else '') if there else 'no session'}")
    return own

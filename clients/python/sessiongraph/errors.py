"""What can go wrong, by its name in docs/reference.md and docs/refusals.md. Everything is an `Error`:

- a `Refusal` is what the node refuses: a start, an act, an abandonment, or a frame that came. All is as before;
- a `WrongLine` is a call that can't be meant, as one with a label that the graph doesn't have. All is as before;
- `UnknownHere`, `NothingToSend`, `Quiet` and `LinkFailed` are answers of single calls;
- an `Ended` says that the process is no more, and why;
- a `Strange` answer is one of no form, so this package and the program don't fit together.
"""
import queue
import re
from typing import ClassVar, Dict, Iterator, Type

from .values import NAME


class Error(Exception):
    """Anything that this package raises for the program."""


class Strange(Error):
    """The program answered by a line of no form that this package knows."""


class NoAnswer(Error, TimeoutError):
    """No answer came within the seconds that a node is given beyond a wait of its own. Its process was killed."""


class Quiet(Error, queue.Empty):
    """No frame came within the time that was given, as `queue.Empty` for a queue."""


class LinkFailed(Error):
    """The link could not give a delivery. Nothing has changed, and the next call may find it mended."""


class UnknownHere(Error, LookupError):
    """No session of this name has had a line from this node since it was started."""


class NothingToSend(Error, LookupError):
    """No frame of the session is kept that could be sent again."""


class Abandon(Exception):
    """A handler raises it to leave its session without sending anything."""


class WrongMessage(Error, TypeError):
    """A handler returned what may not be sent at its node."""


class OtherGraph(Error):
    """No program of the node is of the graph and the role for which the handlers were made."""


# ---- calls that can't be meant


class WrongLine(Error, ValueError):
    """A call that can't be meant."""


class WrongForm(WrongLine):
    """`wrong line: form`: a word, name, value or number is of no form."""


class UnknownWord(WrongLine):
    """`wrong line: unknown`: the graph, label or variable isn't there."""


class GivenTwice(WrongLine):
    """`wrong line: twice`: a variable is given twice."""


# ---- what the node refuses


class Refusal(Error):
    """What the node refused. `reason` is the text of the refusal, and `name` its first word."""

    name: ClassVar[str] = ""
    rest: ClassVar[str] = ""
    reason: str

    def __init__(self, reason: str) -> None:
        super().__init__(reason)
        self.reason = reason
        found = re.fullmatch(self.name + self.rest, reason)
        if found is None:
            raise Strange(f"refused {reason}")
        for key, word in found.groupdict().items():
            setattr(self, key, int(word) if word.isdigit() else word)


class Malformed(Refusal):
    """The bytes are no frame, from the offset `at` on."""

    name, rest = "malformed", r" at (?P<at>\d+)"
    at: int


class UnknownGraph(Refusal):
    """No program of this node is of the graph, for the role that begins or is to join."""

    name = "unknown-graph"


class BadCast(Refusal):
    """The number of principals is wrong, two are equal, or this principal isn't in its place."""

    name = "bad-cast"


class UnknownPeer(Refusal):
    """No key is shared with the principal `peer` of the cast."""

    name, rest = "unknown-peer", rf" (?P<peer>{NAME})"
    peer: str


class BadSession(Refusal):
    """The session identifier of a frame that joins isn't that of its cast."""

    name = "bad-session"


class Joined(Refusal):
    """This principal joined the session in this role before."""

    name = "joined"


class CacheFull(Refusal):
    """65,536 sessions were joined: new keys and a new ledger are needed."""

    name = "cache-full"


class SessionsFull(Refusal):
    """4,096 sessions are live."""

    name = "sessions-full"


class UnknownSession(Refusal):
    """No live session has this identifier, role and version."""

    name = "unknown-session"


class NotWaiting(Refusal):
    """A frame came for a session that is at its turn."""

    name = "not-waiting"


class BadFrameTag(Refusal):
    """The frame's tag isn't right, or its sender is none of the cast."""

    name = "bad-frame-tag"


class NoSuchView(Refusal):
    """No walk would show this role such steps since its last one; often it is an old frame that came again."""

    name = "no-such-view"


class BadTime(Refusal):
    """The time `got` of item number `item` is below `least`; often it is an old frame that came again."""

    name, rest = "bad-time", r" item (?P<item>\d+) got (?P<got>\d+) least (?P<least>\d+)"
    item: int
    got: int
    least: int


class BadEvidence(Refusal):
    """The tag for this role on item number `item` isn't right."""

    name, rest = "bad-evidence", r" item (?P<item>\d+)"
    item: int


class BadOpening(Refusal):
    """What opens `variable` is of another type, or isn't what was committed to."""

    name, rest = "bad-opening", rf" (?P<variable>{NAME})"
    variable: str


class NotYourTurn(Refusal):
    """An act in a session that waits."""

    name = "not-your-turn"


class NoSuchLabel(Refusal):
    """The label doesn't leave the session's node."""

    name = "no-such-label"


class BadValues(Refusal):
    """The value of `variable` is missing, not wanted, or of another type."""

    name, rest = "bad-values", rf" (?P<variable>{NAME})"
    variable: str


class TimeSpent(Refusal):
    """The session has had its 1,000,000 steps."""

    name = "time-spent"


def refusal(reason: str) -> Refusal:
    """Returns the exception for the text of a refusal. Raises Strange if there is none of this name."""
    found = REFUSALS.get(reason.partition(" ")[0])
    if found is None:
        raise Strange(f"refused {reason}")
    return found(reason)


# ---- how the process ends


class Ended(Error):
    """The process has ended. `status` is its exit status, below 0 if a signal ended it, and `said` the line that it wrote on standard error."""

    said_is: ClassVar[str] = ""
    row: ClassVar[str] = ""
    status: int
    said: str

    def __init__(self, status: int, said: str) -> None:
        super().__init__(f"the node has ended with status {status}" + (f": {said}" if said else ""))
        self.status, self.said = status, said


class UsageRefused(Ended):
    """The arguments are none that the program takes; maybe it is too old to have `serve`."""

    row, said_is = "usage", r"usage: .*"


class GraphRefused(Ended):
    """The graph of a program isn't accepted. `said` has the fault."""

    said_is = r"graph refused: .*"


class SelfEdge(GraphRefused):
    """An edge leads to a node of its own role."""

    row, said_is = "self edge", r"graph refused: self edge .*"


class Unreachable(GraphRefused):
    """No walk leads to a node."""

    row, said_is = "unreachable", r"graph refused: unreachable .*"


class IdleRole(GraphRefused):
    """A role has no node."""

    row, said_is = "idle role", r"graph refused: idle role .*"


class NotWriter(GraphRefused):
    """A role writes what it may not."""

    row, said_is = "not writer", r"graph refused: not writer .*"


class ReadsOwn(GraphRefused):
    """A role reads what it alone writes."""

    row, said_is = "reads own", r"graph refused: reads own .*"


class BadRead(GraphRefused):
    """A sender doesn't know what its receiver reads."""

    row, said_is = "bad read", r"graph refused: bad read .*"


class Blinding(GraphRefused):
    """Two roles may both believe that they are next."""

    row, said_is = "blinding", r"graph refused: blinding .*"


class TooManyOpenViews(GraphRefused):
    """Too many lists of steps lie open while the views of a role are looked for."""

    row, said_is = "too many open views", r"graph refused: too many open views .*"


class TooManyViews(GraphRefused):
    """Too many views can reach a role."""

    row, said_is = "too many views", r"graph refused: too many views .*"


class InputRefused(Ended):
    """A file is none of its kind. `said` has which and why."""

    said_is = r"input refused: .*"


class KeysNotToml(InputRefused):
    """The key file is no TOML text."""

    row, said_is = "keys not toml", r"input refused: keys not toml"


class KeysEntry(InputRefused):
    """An entry of the key file is wrong: 0 is the head, and peers count from 1."""

    row, said_is = "keys entry", r"input refused: keys entry .*"


class KeysTwice(InputRefused):
    """A peer of the key file stands twice, or is the principal itself."""

    row, said_is = "keys twice", r"input refused: keys twice .*"


class ProgramMalformed(InputRefused):
    """A program isn't what `compile` writes."""

    row, said_is = "program malformed", r"input refused: program \d+ malformed at .*"


class ProgramEntry(InputRefused):
    """The table of a program isn't that of its graph."""

    row, said_is = "program entry", r"input refused: program \d+ entry .*"


class ProgramTwice(InputRefused):
    """Two programs are of one graph and role, or of two graphs of one name."""

    row, said_is = "program twice", r"input refused: program \d+ twice"


class LedgerNotMade(InputRefused):
    """The file is no ledger; `sessiongraph ledger FILE` makes one."""

    row, said_is = "ledger not made", r"input refused: ledger not made"


class LedgerSlot(InputRefused):
    """The ledger is damaged."""

    row, said_is = "ledger slot", r"input refused: ledger slot .*"


class FileFailed(Ended):
    """A file can't be read."""

    row, said_is = "file failed", r"file failed: .*"


class WriteFailed(Ended):
    """The program's output was not taken."""

    row = "write failed"


class LinkNotOpened(Ended):
    """The address of `listen` can't be had: it isn't the machine's own, or somebody else has the port."""

    row, said_is = "link failed", r"link failed"


class OutOfMemory(Ended):
    """There is no memory for what was asked. The call that ended it was not begun, or it was done and stands in the ledger."""

    row, said_is = "out of memory", r"out of memory"


class NoSuchFile(Ended):
    """There is no such file."""

    row, said_is = "no such file", r"no such file: .*"


class TooLarge(Ended):
    """A file is larger than it may be."""

    row, said_is = "too large file", r"too large: .*"


class DiskFailed(Ended):
    """The ledger's file failed, or another process has it."""

    row, said_is = "disk failed", r"disk failed"


class NoRandomSeed(Ended):
    """The system gave no random bytes."""

    row, said_is = "no random seed", r"no random seed"


class InputFailed(Ended):
    """The program's input could not be read."""

    said_is = r"input failed"


def ended(status: int, said: str) -> Ended:
    """Returns the exception for the end of the process."""
    if status == 6:
        return WriteFailed(status, said)
    fits = [kind for kind in ENDS if kind.said_is and re.fullmatch(kind.said_is, said)] if status else []
    # (the one that says most stands last)
    return fits[-1](status, said) if fits else Ended(status, said)


def below(kind: Type[Error]) -> Iterator[Type[Error]]:
    """The kinds below a kind, in the order in which they stand here."""
    for it in kind.__subclasses__():
        yield it
        yield from below(it)


REFUSALS: Dict[str, Type[Refusal]] = {it.name: it for it in below(Refusal) if issubclass(it, Refusal)}
ENDS = [it for it in below(Ended) if issubclass(it, Ended)]

"""What a node answers, as dataclasses. Sessions are called s1, s2 and so on, as they begin at this node since it was started."""
import re
from dataclasses import dataclass
from typing import Callable, Dict, List, Mapping, Tuple, Type, Union

from . import errors
from .values import NAME, Value, read_assigned

SESSION = r"s[1-9]\d*"


@dataclass(frozen=True)
class Step:
    """A step of the node. `line` is its line, without `unsent`; `number` counts the steps from 1; `me` is this principal."""

    line: str
    number: int
    me: str


@dataclass(frozen=True)
class Started(Step):
    """This principal has begun a session."""

    session: str
    role: str


@dataclass(frozen=True)
class Sent(Step):
    """This principal has sent along `label`, to the principal `to`, as its frame number `frame`. `time` counts the steps of the session. `values` are
    those that it wrote. If the link didn't take the frame, it is `unsent`: the step is done, and `again` may send it."""

    session: str
    label: str
    time: int
    to: str
    frame: int
    values: Mapping[str, Value]
    unsent: bool


@dataclass(frozen=True)
class Received(Step):
    """A frame along `label` was accepted. `values` are those that it opened."""

    session: str
    label: str
    time: int
    values: Mapping[str, Value]


@dataclass(frozen=True)
class Abandoned(Step):
    """This principal has left a session."""

    session: str


@dataclass(frozen=True)
class Refused(Step):
    """A frame that came was refused: `refusal` says why, and may be raised. Which session it was meant for isn't told, since nothing in it is
    believed."""

    refusal: errors.Refusal


@dataclass(frozen=True)
class Again:
    """The last frame of a session was sent once more, or is `unsent` if the link didn't take it."""

    frame: int
    to: str
    unsent: bool


@dataclass(frozen=True)
class Turn:
    """It is this principal's turn at `node`. `labels` has what may be sent there, and the variables that it writes with their types, `int` or
    `text`."""

    session: str
    node: str
    labels: Mapping[str, Mapping[str, str]]


@dataclass(frozen=True)
class Waits:
    """The session waits for others."""

    session: str


@dataclass(frozen=True)
class Over:
    """The session is over for this principal: it came to an end of the graph, or was abandoned."""

    session: str


Event = Union[Received, Refused]

STEP = rf"(?P<number>\d+) (?P<me>{NAME})"
VALUES = r"(?P<values>(?: [^ ]+)*)"


def _step(found: "re.Match[str]") -> Tuple[str, int, str]:
    return found[0], int(found["number"]), found["me"]


def _started(found: "re.Match[str]") -> Started:
    return Started(*_step(found), found["session"], found["role"])


def _sent(found: "re.Match[str]", unsent: bool = False) -> Sent:
    return Sent(*_step(found), found["session"], found["label"], int(found["time"]), found["to"], int(found["frame"]), read_assigned(found["values"]), unsent)


def _received(found: "re.Match[str]") -> Received:
    return Received(*_step(found), found["session"], found["label"], int(found["time"]), read_assigned(found["values"]))


def _abandoned(found: "re.Match[str]") -> Abandoned:
    return Abandoned(*_step(found), found["session"])


def _refused(found: "re.Match[str]") -> Refused:
    return Refused(*_step(found), errors.refusal(found["reason"]))


FORMS: List[Tuple["re.Pattern[str]", Callable[["re.Match[str]"], Step]]] = [
    (re.compile(rf"{STEP} (?P<session>{SESSION}) started as (?P<role>{NAME})"), _started),
    (re.compile(rf"{STEP} (?P<session>{SESSION}) sent (?P<label>{NAME}) time (?P<time>\d+) to (?P<to>{NAME}) as f(?P<frame>\d+){VALUES}"), _sent),
    (re.compile(rf"{STEP} (?P<session>{SESSION}) received (?P<label>{NAME}) time (?P<time>\d+){VALUES}"), _received),
    (re.compile(rf"{STEP} (?P<session>{SESSION}) abandoned"), _abandoned),
    (re.compile(rf"{STEP} refused (?P<reason>[a-z].*)"), _refused),
]
WRONG: Dict[str, Type[errors.WrongLine]] = {"form": errors.WrongForm, "unknown": errors.UnknownWord, "twice": errors.GivenTwice}
TURN = re.compile(rf"turn (?P<session>{SESSION}) at (?P<node>{NAME}):(?P<labels>.*)")
AGAIN = re.compile(rf"(?P<unsent>unsent )?again f(?P<frame>\d+) to (?P<to>{NAME})")
ID = re.compile(rf"id {SESSION} (?P<digest>[0-9a-f]{{64}})")


def read_step(line: str) -> Step:
    """Returns the step of a line. Raises what else the line says: Strange if it is of no form."""
    text, unsent = (line[7:], True) if line.startswith("unsent ") else (line, False)
    for form, make in FORMS:
        found = form.fullmatch(text)
        if found:
            return _sent(found, unsent) if make is _sent else make(found)
    raise fault_of(line)


def fault_of(line: str) -> errors.Error:
    """Returns what an answer says that isn't the one that was wanted."""
    wrong = re.fullmatch(r"wrong line: (form|unknown|twice)", line)
    if wrong:
        return WRONG[wrong[1]](line)
    if re.fullmatch(rf"unknown {SESSION}", line):
        return errors.UnknownHere(line)
    if re.fullmatch(rf"nothing to send again in {SESSION}", line):
        return errors.NothingToSend(line)
    return {"quiet": errors.Quiet(), "link failed": errors.LinkFailed(line)}.get(line, errors.Strange(line))


def read_turn(line: str) -> Union[Turn, Waits, Over]:
    """Returns what `turn` answered."""
    found = TURN.fullmatch(line)
    if found:
        labels = {}
        for word in found["labels"].split():
            label, _, variables = word.rstrip(")").partition("(")
            labels[label] = dict(it.split(":", 1) for it in variables.split(",") if it)
        return Turn(found["session"], found["node"], labels)
    other = re.fullmatch(rf"(waits|over) ({SESSION})", line)
    if other is None:
        raise fault_of(line)
    return Waits(other[2]) if other[1] == "waits" else Over(other[2])


def read_again(line: str) -> Again:
    """Returns what `again` answered."""
    found = AGAIN.fullmatch(line)
    if found is None:
        raise fault_of(line)
    return Again(int(found["frame"]), found["to"], found["unsent"] is not None)


def read_id(line: str) -> str:
    """Returns what `id` answered."""
    found = ID.fullmatch(line)
    if found is None:
        raise fault_of(line)
    return found["digest"]

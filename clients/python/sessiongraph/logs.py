"""Puts the logs of several principals together, for `sessiongraph audit`.

The records of the logger "sessiongraph.steps" have the session's identifier and then the line of the step, so that sessions are told apart whatever
each principal calls them, and after a restart, too. Whatever stands before that in a line of a log file, as a time, doesn't matter."""
import os
import re
from typing import Dict, Iterable, List, Mapping, Union

from .values import NAME

LINE = re.compile(rf"(?:.*[^0-9a-f])?([0-9a-f]{{64}}) \d+ {NAME} s\d+ (started as .*|abandoned|sent .*|received .*)")
SENT = re.compile(rf"(sent|received) ({NAME}) time (\d+)(?: to {NAME} as f\d+)?(.*)")


def read(path: Union[str, "os.PathLike[str]"]) -> Dict[str, List[str]]:
    """Returns the events of a log, as log files have them (docs/formats.md, Log file), by the identifiers of their sessions. A last line without its
    end is left out, since it may be cut."""
    found: Dict[str, List[str]] = {}
    with open(path, encoding="utf-8", errors="replace") as file:
        for text in file.read().split("\n")[:-1]:
            line = LINE.fullmatch(text)
            if line:
                events, event = found.setdefault(line[1], []), SENT.fullmatch(line[2])
                if event:
                    events.append(f"{event[1]} {event[2]} {event[3]}{event[4]}")
    return found


def log_file(graph: str, roles: Mapping[str, Mapping[str, List[str]]], sessions: Iterable[str]) -> str:
    """Returns the log file of sessions of a graph, which are called s1, s2 and so on in it. `graph` is the graph's text, and `roles` has what `read`
    returned for the log of each role's principal. A session that a log doesn't have has an empty log there."""
    lines = ["graph {", graph.rstrip("\n"), "}"]
    for number, session in enumerate(sessions, 1):
        lines.append(f"session s{number}")
        for role, log in roles.items():
            lines += [f"log {role}", *log.get(session, [])]
    return "\n".join(lines) + "\n"

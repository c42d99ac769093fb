"""Plays roles of session graphs over a principal that runs `sessiongraph serve`.

Ten lines that play a role, the boss of docs/tutorial.md; `tools/stubs purchase.graph boss >boss.py` writes the module `boss`:

    import boss
    from sessiongraph import Client

    class Ben(boss.Handlers):
        def desk(self, session, came, knows):
            return boss.Approve(limit=50) if came.goods != "piano" else boss.Reject()

    with Client("ben.keys", "boss.program", ledger="ben.ledger") as client:
        client.run(Ben())

`Node` is the process, with a method for each line of `serve`: the answers are dataclasses (`events`), and what is refused is raised by its name
(`errors`). `Client` is a node that plays sessions by handlers, many side by side, and sends frames again after a silence (`Policy`). `claims` says
whether claims hold of a walk, and `logs` puts the logs of several principals together for `sessiongraph audit`.

What happens is logged by `logging`: "sessiongraph.steps" has a record for each step, at INFO, which begins with the session's identifier;
"sessiongraph.play" and "sessiongraph.node" have what else there is to say. All of it is for Python 3.9 or later, without other packages, and for
systems with `poll`.
"""
from . import claims, errors, events, logs
from .errors import Abandon, Ended, Error, LinkFailed, Quiet, Refusal
from .events import Abandoned, Again, Event, Over, Received, Refused, Sent, Started, Turn, Waits
from .node import Node
from .play import Client, Counts, Handlers, Message, Policy, Session
from .values import Value

__all__ = [
    "Abandon", "Abandoned", "Again", "Client", "Counts", "Ended", "Error", "Event", "Handlers", "LinkFailed", "Message", "Node", "Over", "Policy", "Quiet",
    "Received", "Refusal", "Refused", "Sent", "Session", "Started", "Turn", "Value", "Waits", "claims", "errors", "events", "logs",
]

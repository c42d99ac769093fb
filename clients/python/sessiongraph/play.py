"""Plays roles by handlers: a method for each node of a role, in a class that `tools/stubs` writes of the graph."""
import collections
import concurrent.futures
import heapq
import itertools
import logging
import queue
import sys
import threading
import time
from dataclasses import dataclass, field
from typing import Any, ClassVar, Deque, Dict, List, Mapping, Optional, Sequence, TextIO, Tuple, Type

from . import errors, events
from .node import Node
from .programs import digest_of_program
from .values import Value

LOG = logging.getLogger("sessiongraph.play")
# How many sessions are begun before the next look at what comes. (Of frames, one is sent again. That costs its sender more than who refuses it, so
# nobody is flooded who is as fast.)
BEGINS = 4


class Message:
    """A message of a graph. Its subclasses are dataclasses with a field for each variable that it writes, if the role sends it, or reads, if it
    receives it. `_label` is its label, and `_variables` has the graph's names of the fields."""

    _label: ClassVar[str] = ""
    _variables: ClassVar[Mapping[str, str]] = {}

    def _values(self) -> Dict[str, Value]:
        return {name: getattr(self, own) for own, name in self._variables.items()}


@dataclass(frozen=True)
class At:
    """A node of a role: the method that plays it, what may be sent there, and what is known there: the class, and the graph's names of its fields."""

    method: str
    sends: Tuple[Type[Message], ...]
    knows: Type[Any]
    variables: Mapping[str, str]


class Handlers:
    """What a role does at its nodes. `tools/stubs GRAPH ROLE` writes a subclass with a method for each node, to be filled in by a subclass of
    that."""

    _graph: ClassVar[str] = ""
    _digest: ClassVar[str] = ""
    _role: ClassVar[str] = ""
    # the nodes of the role; the start, if it is of this role; and what is received, with the node to which that leads
    _nodes: ClassVar[Mapping[str, At]] = {}
    _start: ClassVar[Optional[str]] = None
    _receives: ClassVar[Mapping[str, Tuple[Type[Message], str]]] = {}

    def left(self, session: "Session") -> None:
        """Is called if a session ends otherwise than at a node without messages: it was given up after a silence, or a handler left it.
        `session.fault` says why."""


@dataclass(frozen=True)
class Policy:
    """How sessions are played over a network that loses frames. Times are in seconds.

    In a session that waits for others, the last frame is sent again after a silence: of `again`, or of twice the time that answers have taken of
    late, if that is more. The next silence is `slower` times as long, and so on, up to `longest`. A frame goes out again only when nothing else
    has come, or a silence is `longest` late, so that whoever has much to do makes no more of it for others. A session in which nothing came for
    `patience` is left, since it may wait for ever.

    If a session is over and its last frame was an own one, nobody tells whether that came. It is sent again `last` times, after silences that grow
    up to a quarter of `patience`, so that it also comes to who had much to do for a while.

    A wait for a frame takes at most `wait`; so long a new session may have to wait. Of the sessions that begin here, at most `most` wait for others
    at once; further ones wait for their place."""

    again: float = 0.25
    slower: float = 2.0
    longest: float = 5.0
    patience: float = 60.0
    last: int = 8
    wait: float = 0.05
    most: int = 100

    def silence(self, count: int, answers: float = 0.0, over: bool = False) -> float:
        """The silence after which a frame is sent again that was sent again `count` times, if answers take so many seconds, in a session that
        waits, or is over."""
        longest = max(self.longest, self.patience / 4) if over else self.longest
        return min(max(self.again, 2.0 * answers) * self.slower ** min(count, 32), longest)


@dataclass(eq=False)
class Session:
    """A session, as its handlers see it. `name` is the node's name for it, `id` its identifier, the same for all principals. `values` has what was
    written or read here last, by the graph's names. `context` is what it was begun with, and is for the handlers. `state` is `queued`, `playing`,
    `over` or `left`, and `fault` says why it was left: `Quiet` after a silence, `Abandon`, or what a handler or the node raised."""

    handlers: Handlers
    context: Any = None
    name: str = ""
    id: str = ""
    state: str = "queued"
    values: Dict[str, Value] = field(default_factory=dict)
    steps: List[events.Step] = field(default_factory=list)
    fault: Optional[BaseException] = None
    # when the last step was, when its frame went out last, and how often again; when something is to be done next, and whether a handler decides now
    _heard: float = 0.0
    _sent: float = 0.0
    _agains: int = 0
    _due: float = 0.0
    _busy: bool = False
    _ended: threading.Event = field(default_factory=threading.Event)

    @property
    def graph(self) -> str:
        """The name of its graph."""
        return self.handlers._graph

    @property
    def role(self) -> str:
        """The role that this principal plays in it."""
        return self.handlers._role

    def done(self) -> bool:
        """Whether it has ended here: it is `over` or `left`."""
        return self._ended.is_set()

    def wait(self, timeout: Optional[float] = None) -> bool:
        """Waits until it has ended here, at most so many seconds; returns whether it has. It is for another thread than the one that plays."""
        return self._ended.wait(timeout)

    def __str__(self) -> str:
        return f"{self.id[:12]} ({self.name})" if self.name else "a session that isn't begun"


@dataclass
class Counts:
    """How many sessions were played: those that came to an end of the graph, those that were left, and those that go on."""

    over: int = 0
    left: int = 0
    live: int = 0
    queued: int = 0

    def __str__(self) -> str:
        return f"{self.over:,} sessions over, {self.left:,} left, {self.live:,} live, {self.queued:,} waiting to begin"


class Client(Node):
    """A node that plays sessions by handlers. It is made and ended as a `Node`."""

    _begun: "queue.SimpleQueue[Tuple[Session, Tuple[str, ...], int, Optional[str]]]"

    def __init__(self, *words: Any, **named: Any) -> None:
        self._begun, self._stop, self.counts = queue.SimpleQueue(), threading.Event(), Counts()
        super().__init__(*words, **named)

    def begin(self, cast: Sequence[str], context: Any = None, version: int = 1, graph: Optional[str] = None) -> Session:
        """Has `run` begin a session with the principals of `cast`, in the order of the roles, and returns it. `graph` is wanted if the handlers of
        several graphs begin sessions. Any thread may call it, also before `run`. What the node refuses is the `fault` of the session, which then is
        `left`."""
        session = Session(Handlers(), context)
        self._begun.put((session, tuple(cast), version, graph))
        return session

    def stop(self) -> None:
        """Has `run` return after its next wait. Any thread may call it, and a signal's handler."""
        self._stop.set()

    def run(
        self,
        *handlers: Handlers,
        policy: Optional[Policy] = None,
        until_idle: bool = False,
        workers: int = 0,
        progress: Optional[TextIO] = None,
    ) -> Counts:
        """Plays all sessions, side by side: those that `begin` asks for, and those that others begin. It returns after `stop`, at `Ctrl-C`, or, with
        `until_idle`, if nothing is left to be done. Raises `Ended` if the process ends, and `OtherGraph`.

        Handlers are called in this thread, one at a time, or with `workers` in so many others, so that one that takes long doesn't hold up the rest.
        What a handler raises leaves its session and is logged; so is a message that may not be sent at its node (`WrongMessage`).

        To `progress`, as `sys.stderr`, a line is written each second, and at the end: how many sessions are over, left and live."""
        return _Play(self, handlers, policy or Policy(), workers, progress).run(until_idle)


class _Play:
    """One call of `run`."""

    def __init__(self, client: Client, handlers: Sequence[Handlers], policy: Policy, workers: int, progress: Optional[TextIO]) -> None:
        self.client, self.policy, self.progress = client, policy, progress
        self.handlers = handlers
        self.by_label: Dict[str, Handlers] = {}
        own = [digest_of_program(it) for it in client.programs]
        for it in handlers:
            if (it._digest, it._role) not in own:
                raise errors.OtherGraph(f"the node has no program of the graph {it._graph} of which these handlers of {it._role} are")
            for label in it._receives:
                if label in self.by_label:
                    # (the line of a frame that joins doesn't say of which graph it is)
                    raise ValueError(f"{label} is received in {it._graph} and in {self.by_label[label]._graph}: play them at two nodes, or rename it in one")
                self.by_label[label] = it
        self.sessions: Dict[str, Session] = {}
        self.waiting: Deque[Tuple[Session, Tuple[str, ...], int, Optional[str]]] = collections.deque()
        self.own: Dict[str, Session] = {}
        # (when, and a number that decides between equals)
        self.due: List[Tuple[float, int, Session]] = []
        self.ties = itertools.count()
        self.pool = concurrent.futures.ThreadPoolExecutor(workers, "sessiongraph-handler") if workers else None
        self.working: Dict["concurrent.futures.Future[Message]", Tuple[Session, At]] = {}
        self.told = time.monotonic()
        # whether nothing came at the last look, and how long answers have taken of late
        self.quiet, self.taken = True, 0.0

    def run(self, until_idle: bool) -> Counts:
        """Plays until it is stopped, or idle."""
        try:
            while not self.client._stop.is_set():
                self.begins()
                if until_idle and not (self.sessions or self.waiting or self.working or not self.client._begun.empty()):
                    break
                self.hears()
                self.answers()
                self.silences()
                self.tells()
        except KeyboardInterrupt:
            LOG.info("interrupted: %s", self.client.counts)
        finally:
            self.client._stop.clear()
            if self.pool is not None:
                self.pool.shutdown(wait=False, cancel_futures=True)
        self.tells(at_end=True)
        return self.client.counts

    # ---- sessions that begin here

    def begins(self) -> None:
        """Begins the sessions that were asked for, as far as there is room."""
        while not self.client._begun.empty():
            self.waiting.append(self.client._begun.get())
        # (who has much to do begins less)
        for _ in range(BEGINS if self.quiet else 1):
            if not self.waiting or len(self.own) >= self.policy.most:
                break
            session, cast, version, graph = self.waiting.popleft()
            try:
                session.handlers = self.starting(graph)
                started = self.client.start(session.handlers._graph, cast, version)
            except (errors.Refusal, errors.WrongLine, ValueError) as fault:
                session.fault, session.state = fault, "left"
                LOG.warning("a session can't begin: %s", fault)
                self.client.counts.left += 1
                session._ended.set()
                continue
            self.own[started.session] = session
            self.joined(session, started)
            assert session.handlers._start is not None
            self.plays(session, session.handlers._start, None)

    def starting(self, graph: Optional[str]) -> Handlers:
        """Returns the handlers of whoever starts a graph."""
        found = [it for it in self.handlers if it._start is not None and graph in (None, it._graph)]
        if len(found) != 1:
            raise ValueError(f"handlers that start {graph or 'a session'} are wanted, and there are {len(found)}")
        return found[0]

    def joined(self, session: Session, step: Any) -> None:
        """Notes a session that is new here."""
        session.name, session.id, session.state = step.session, self.client.id(step.session), "playing"
        session.steps.append(step)
        session._heard = time.monotonic()
        self.sessions[session.name] = session

    # ---- what comes

    def hears(self) -> None:
        """Waits for a frame, and takes it."""
        wait = self.policy.wait
        if self.due:
            wait = max(0.0, min(wait, self.due[0][0] - time.monotonic()))
        if self.working:
            wait = min(wait, 0.01)
        if self.waiting and len(self.own) < self.policy.most:
            wait = 0.0
        self.quiet = False
        try:
            event = self.client.recv(wait)
        except errors.Quiet:
            self.quiet = True
            return
        except errors.LinkFailed as fault:
            LOG.warning("%s", fault)
            time.sleep(self.policy.wait)
            return
        if isinstance(event, events.Refused):
            LOG.debug("a frame was refused: %s", event.refusal)
            return
        session = self.sessions.get(event.session)
        if session is None:
            known = self.by_label.get(event.label)
            if known is None:
                LOG.error("nobody handles %s, so its session is left", event.label)
                self.client.abandon(event.session)
                self.client.forget(event.session)
                return
            session = Session(known)
            self.joined(session, event)
        else:
            session.steps.append(event)
        session.values.update(event.values)
        now = time.monotonic()
        if session._sent:
            self.taken += ((now - session._sent) - self.taken) / 8
        session._heard, session._agains = now, 0
        kind, node = session.handlers._receives[event.label]
        LOG.debug("%s: %s came: %s", session, event.label, dict(event.values))
        self.plays(session, node, kind(**{own: event.values[name] for own, name in kind._variables.items()}))

    # ---- an own turn

    def plays(self, session: Session, node: str, came: Optional[Message]) -> None:
        """Asks the handler of a node, at once or by a worker."""
        at = session.handlers._nodes[node]
        knows = at.knows(**{own: session.values.get(name) for own, name in at.variables.items()})
        session._due, session._busy = 0.0, True
        if self.pool is None:
            done: "concurrent.futures.Future[Message]" = concurrent.futures.Future()
            try:
                done.set_result(getattr(session.handlers, at.method)(session, came, knows))
            except Exception as fault:
                done.set_exception(fault)
            self.answered(session, at, done)
        else:
            self.working[self.pool.submit(getattr(session.handlers, at.method), session, came, knows)] = session, at

    def answers(self) -> None:
        """Takes what workers have decided."""
        for done in [it for it in self.working if it.done()]:
            self.answered(*self.working.pop(done), done)

    def answered(self, session: Session, at: At, done: "concurrent.futures.Future[Message]") -> None:
        """Sends what a handler has decided."""
        session._busy = False
        try:
            message = done.result()
            if not at.sends:
                self.ends(session, "over")
                return
            if type(message) not in at.sends:
                allowed = ", ".join(it._label for it in at.sends)
                raise errors.WrongMessage(f"{type(message).__name__} may not be sent at {at.method} of {session.role}, but {allowed}")
            sent = self.client.act(session.name, message._label, message._values())
        except errors.Ended:
            raise
        except errors.Abandon as fault:
            LOG.info("%s is left: %s", session, fault)
            self.leaves(session, fault)
            return
        except Exception as fault:
            LOG.error("%s is left at %s", session, at.method, exc_info=fault)
            self.leaves(session, fault)
            return
        LOG.debug("%s: %s was sent to %s: %s", session, sent.label, sent.to, dict(sent.values))
        session.steps.append(sent)
        session.values.update(sent.values)
        session._heard = session._sent = time.monotonic()
        session._agains = 0
        self.waits(session, self.policy.silence(0, self.taken))

    # ---- silences

    def waits(self, session: Session, seconds: float) -> None:
        """Has the clock look after a session in so many seconds."""
        session._due = time.monotonic() + seconds
        heapq.heappush(self.due, (session._due, next(self.ties), session))

    def silences(self) -> None:
        """Does what the clock asks for."""
        now = time.monotonic()
        late = now if self.quiet else now - self.policy.longest
        while self.due and self.due[0][0] <= late:
            due, _, session = heapq.heappop(self.due)
            if due == session._due and not session._busy:
                self.silent(session, now)
                break

    def silent(self, session: Session, now: float) -> None:
        """Nothing was heard in a session for a while."""
        over = isinstance(self.client.turn(session.name), events.Over)
        if over:
            self.own.pop(session.name, None)
        if over and session._agains == self.policy.last:
            self.ends(session, "over")
        elif not over and now - session._heard > self.policy.patience:
            fault = errors.Quiet(f"nothing came for {self.policy.patience:g} s")
            LOG.info("%s is left: %s", session, fault)
            self.leaves(session, fault)
        else:
            # (what was lost says nothing of how long an answer takes)
            session._agains, session._sent = session._agains + 1, now
            try:
                self.client.again(session.name)
            except errors.NothingToSend:
                pass
            self.waits(session, self.policy.silence(session._agains, self.taken, over))

    # ---- ends

    def leaves(self, session: Session, fault: BaseException) -> None:
        """Leaves a session without a message."""
        session.fault = fault
        try:
            self.client.abandon(session.name)
        except errors.Refusal:
            pass
        self.ends(session, "left")
        try:
            session.handlers.left(session)
        except Exception as why:
            LOG.error("%s: in the handler of sessions that are left", session, exc_info=why)

    def ends(self, session: Session, state: str) -> None:
        """Nothing more is to be done in a session."""
        session.state, session._due = state, 0.0
        self.sessions.pop(session.name, None)
        self.own.pop(session.name, None)
        self.client.forget(session.name)
        if state == "over":
            self.client.counts.over += 1
        else:
            self.client.counts.left += 1
        session._ended.set()

    def tells(self, at_end: bool = False) -> None:
        """Writes how far it is, once a second and at its end."""
        now, counts = time.monotonic(), self.client.counts
        counts.live, counts.queued = len(self.sessions), len(self.waiting)
        if self.progress is not None and (at_end or now - self.told >= 1.0):
            self.told = now
            print(f"sessiongraph: {counts}", file=self.progress, flush=True)

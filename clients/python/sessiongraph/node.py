"""A principal, as a process that runs `sessiongraph serve`."""
import logging
import os
import select
import signal
import subprocess
import tempfile
import threading
import time
from types import TracebackType
from typing import Callable, Dict, List, Mapping, Optional, Sequence, Type, TypeVar, Union

from . import errors, events
from .values import Value, assigned, named

LOG = logging.getLogger("sessiongraph.node")
# A record for each step, which begins with the session's identifier, or `-` if a frame was refused. `logs.py` reads them again.
STEPS = logging.getLogger("sessiongraph.steps")

Path = Union[str, "os.PathLike[str]"]
# A principal that waits reads no command, so a wait is asked for in pieces of so many seconds: if this process dies, the principal ends soon.
LONGEST_WAIT = 1.0
Kind = TypeVar("Kind", bound=events.Step)


class Node:
    """A principal, as a process that runs `sessiongraph serve`. It is started by making the object, and ended by `with` or `close`, as a
    `subprocess.Popen`.

    `keys` is its key file, and `programs` are what `sessiongraph compile` wrote for its roles. `program` is the program itself: a path, or the arguments
    before `serve`; without it, the environment's SESSIONGRAPH, or else `sessiongraph` as the PATH has it. `tcp` is for connections in place of
    datagrams, and `ledger` a file that `sessiongraph ledger` made, so that no session is joined twice, whenever this process ends. `patience` is
    after how many seconds without an answer, beyond a wait that was asked for, the process is killed; it only ends a hang.

    It is there when its link is open, so that others may send to it. What keeps it from that is raised as an `Ended`.

    Calls come from one thread at a time: another one waits for its answer. The process is in a group of its own, so that `Ctrl-C` at a terminal comes
    to the caller alone, who then ends it.
    """

    def __init__(
        self,
        keys: Path,
        *programs: Path,
        program: Union[Path, Sequence[Path], None] = None,
        tcp: bool = False,
        ledger: Optional[Path] = None,
        patience: float = 120.0,
    ) -> None:
        if program is None:
            program = os.environ.get("SESSIONGRAPH") or "sessiongraph"
        words = [program] if isinstance(program, (str, os.PathLike)) else list(program)
        self.keys, self.programs, self.patience = keys, programs, patience
        self.args: List[str] = [os.fspath(it) for it in words] + ["serve"] + (["--tcp"] if tcp else [])
        self.args += ["--ledger", os.fspath(ledger)] if ledger is not None else []
        self.args += [os.fspath(it) for it in (keys, *programs)]
        # how many answers are owed for calls that were interrupted, what came with them, and whether only a part of a line went out
        self._owed, self._torn = 0, False
        self._late: List[events.Event] = []
        self._lock, self._unread = threading.RLock(), b""
        # the identifiers of the sessions that had a line
        self._ids: Dict[str, str] = {}
        self._said = tempfile.TemporaryFile()
        try:
            self.process = subprocess.Popen(
                self.args, stdin=subprocess.PIPE, stdout=subprocess.PIPE, stderr=self._said, bufsize=0, start_new_session=True
            )
        except BaseException:
            self._said.close()
            raise
        assert self.process.stdin is not None and self.process.stdout is not None
        self._in, self._out = self.process.stdin, self.process.stdout
        self._poll = select.poll()
        self._poll.register(self._out, select.POLLIN | select.POLLHUP)
        try:
            self._ready()
        except BaseException:
            self.kill()
            self._drop()
            raise
        LOG.debug("process %d serves: %s", self.pid, " ".join(self.args))

    def _ready(self) -> None:
        """Waits until the link is open."""
        line = self.ask("turn s1")
        if line != "unknown s1":
            raise errors.Strange(line)

    # ---- the process

    @property
    def pid(self) -> int:
        """The number of the process."""
        return self.process.pid

    @property
    def returncode(self) -> Optional[int]:
        """The exit status of the process, or None while it runs."""
        return self.process.poll()

    def kill(self) -> None:
        """Ends the process at once, by SIGKILL. The next call raises `Ended`."""
        self.process.kill()

    def close(self) -> int:
        """Has the process end, waits for that, and returns its status. An answer that an interrupted call left behind is logged. Further calls do
        nothing."""
        with self._lock:
            if not self._in.closed:
                try:
                    while self._owed and not self._torn:
                        self._overdue()
                    self._in.close()
                except (errors.Error, BrokenPipeError) as fault:
                    LOG.debug("at the end: %s", fault)
                try:
                    self.process.wait(self.patience)
                except subprocess.TimeoutExpired:
                    LOG.error("process %d doesn't end, and is killed", self.pid)
                    self.process.kill()
                self._drop()
            status = self.process.wait()
        return status

    def _drop(self) -> None:
        """Gives back what the process has of the system."""
        for it in (self._in, self._out, self._said):
            try:
                it.close()
            except BrokenPipeError:
                pass
        self.process.wait()

    def __enter__(self: "NodeType") -> "NodeType":
        return self

    def __exit__(self, kind: Optional[Type[BaseException]], fault: Optional[BaseException], trace: Optional[TracebackType]) -> None:
        self.close()

    def _ended(self) -> errors.Ended:
        """Returns how the process has ended."""
        status = self.process.wait()
        self._said.seek(0)
        said = self._said.read().decode(errors="replace").strip().split("\n")
        if status < 0:
            return errors.Ended(status, f"by {signal.Signals(-status).name}")
        return errors.ended(status, said[0])

    # ---- a line and its answer

    def ask(self, line: str, seconds: float = 0.0) -> str:
        """Gives the process a line of `serve` and returns its line of answer, as they are; `seconds` is how long the line itself has it wait. Most
        have no need of this, since there is a method for each line. Raises `Ended` and `NoAnswer`."""
        with self._lock:
            if self._in.closed:
                raise ValueError("the node is closed")
            if "\n" in line:
                raise ValueError("a line has no line feed")
            if self._torn:
                raise ValueError("a call was interrupted within its line, so the node can only be closed")
            while self._owed:
                self._overdue()
            self._torn, rest = True, memoryview(line.encode() + b"\n")
            try:
                while rest:
                    rest = rest[self._in.write(rest) :]
            except BrokenPipeError:
                raise self._ended() from None
            self._owed, self._torn = 1, False
            answer = self._answer(seconds)
            self._owed -= 1
        return answer

    def _overdue(self) -> None:
        """Takes an answer for which an interrupted call didn't wait. If a frame came with it, that isn't lost."""
        line = self._answer(LONGEST_WAIT)
        self._owed -= 1
        try:
            step = events.read_step(line)
        except errors.Error:
            return
        self._note(step)
        if isinstance(step, (events.Received, events.Refused)):
            self._late.append(step)

    def _answer(self, seconds: float) -> str:
        """Returns the next line of answer."""
        end = time.monotonic() + self.patience + seconds
        while b"\n" not in self._unread:
            left = end - time.monotonic()
            if left <= 0:
                self.kill()
                raise errors.NoAnswer(f"no answer in {self.patience + seconds:.0f} s: the process was killed")
            if self._poll.poll(left * 1_000):
                piece = os.read(self._out.fileno(), 65_536)
                if not piece:
                    raise self._ended()
                self._unread += piece
        line, _, self._unread = self._unread.partition(b"\n")
        return line.decode()

    def _note(self, step: events.Step) -> None:
        """Logs a step, with its session's identifier."""
        session: Optional[str] = getattr(step, "session", None)
        digest = self._ids.get(session, "-") if session else "-"
        if session and digest == "-" and self._owed == 0:
            digest = self._ids[session] = events.read_id(self.ask(f"id {session}"))
        STEPS.info("%s %s", digest, step.line)

    def _step(self, line: str, kind: Type[Kind], seconds: float = 0.0) -> Kind:
        """Does a step and returns it. A refusal is raised."""
        with self._lock:
            step = events.read_step(self.ask(line, seconds))
            self._note(step)
        if isinstance(step, events.Refused):
            raise step.refusal
        if not isinstance(step, kind):
            raise errors.Strange(step.line)
        return step

    # ---- the calls

    def start(self, graph: str, cast: Sequence[str], version: int = 1) -> events.Started:
        """Begins a session of the graph, with the principals of `cast` in the order of its roles; this principal plays the role of the start. Frames
        are of `version` 1 or 2. Raises a `Refusal`: UnknownGraph, BadCast, UnknownPeer, Joined, CacheFull, SessionsFull; or a `WrongLine`."""
        names = ",".join(named(it, "principal") for it in cast)
        return self._step(f"start {named(graph, 'graph')} {version} {names}", events.Started)

    def act(self, session: str, label: str, values: Optional[Mapping[str, Value]] = None, **more: Value) -> events.Sent:
        """Sends along the label and writes the values, which may be given by name, too. Raises a `Refusal`: UnknownSession, NotYourTurn, NoSuchLabel,
        BadValues, TimeSpent; a `WrongLine`; `UnknownHere`; and ValueError or TypeError for what is no value."""
        return self._step(f"act {session} {named(label, 'label')}{assigned({**(values or {}), **more})}", events.Sent)

    def abandon(self, session: str) -> events.Abandoned:
        """Leaves the session. Nobody is told. Raises the `Refusal` UnknownSession if it isn't live; and `UnknownHere`."""
        return self._step(f"abandon {session}", events.Abandoned)

    def recv(self, timeout: float) -> events.Event:
        """Does one step with the next frame that comes within `timeout` seconds, and returns that it was received or refused. Raises `Quiet` if
        none came, and `LinkFailed`. Other calls wait meanwhile."""
        with self._lock:
            if self._late:
                return self._late.pop(0)
            wait = min(max(timeout, 0.0), 86_400.0)
            step = events.read_step(self.ask(f"recv {int(wait * 1_000)}", wait))
            self._note(step)
        if not isinstance(step, (events.Received, events.Refused)):
            raise errors.Strange(step.line)
        return step

    def receive(self, timeout: Optional[float] = None) -> events.Received:
        """Waits until a frame is accepted and returns it; those that are refused meanwhile are logged. Raises `Quiet` if none is accepted within
        `timeout` seconds; without that it waits for ever. Other calls come in between."""
        end = None if timeout is None else time.monotonic() + timeout
        while True:
            left = LONGEST_WAIT if end is None else end - time.monotonic()
            try:
                event = self.recv(min(left, LONGEST_WAIT))
                if isinstance(event, events.Received):
                    return event
                LOG.debug("a frame was refused: %s", event.refusal)
            except errors.Quiet:
                pass
            # (refused frames may come without end)
            if end is not None and time.monotonic() >= end:
                raise errors.Quiet()

    def again(self, session: str) -> events.Again:
        """Sends the frame that this principal sent last in the session once more, the same bytes. Raises `NothingToSend` and `UnknownHere`."""
        return self._read(events.read_again, f"again {session}")

    def turn(self, session: str) -> Union[events.Turn, events.Waits, events.Over]:
        """Returns whose turn it is, and what may be sent. Raises `UnknownHere`."""
        return self._read(events.read_turn, f"turn {session}")

    def id(self, session: str) -> str:
        """Returns the session's identifier, 64 hexadecimal digits, which is the same for all its principals. Raises `UnknownHere`."""
        if session not in self._ids:
            self._ids[session] = self._read(events.read_id, f"id {session}")
        return self._ids[session]

    def forget(self, session: str) -> None:
        """Forgets the identifier of a session here, so that memory doesn't grow with the sessions. `id` asks anew."""
        self._ids.pop(session, None)

    def _read(self, read: "Callable[[str], Answer]", line: str) -> "Answer":
        return read(self.ask(line))


NodeType = TypeVar("NodeType", bound=Node)
Answer = TypeVar("Answer")

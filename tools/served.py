"""Drives a principal that runs `serve`: gives it lines, reads its answers, and plays sessions by a policy.

`Served` is the process: a line goes in, and its one line of answer comes back. `Application` plays any number of sessions over it, over a network that loses,
repeats and reorders. What is to be done at a turn is decided by whoever makes it; the rest is its policy:

- it waits by `recv 50`, and takes all that has come before it sends anything again, one frame at a time: else frames that are sent again fill up who is
  slow to take them;
- in a session that waits for others it sends its last frame again after a quarter of a second, or twice the time that answers take of late, if that is more,
  and then after twice as long each time, up to four seconds. It goes by its own clock, since a frame that is refused ends a wait too. A session from which
  nothing was heard for so many seconds, or twenty times as long as answers take, it abandons, since it may wait for ever;
- if a session is over for it and its own frame was the last, nobody tells whether that came: it sends it again, at most so many times.
"""
import os
import re
import select
import subprocess
import sys
import time

sys.dont_write_bytecode = True
import run_lines

NAME = run_lines.NAME
SESSION = r"s[1-9]\d*"
# The answers that are no step's line.
OTHERS = {
    "quiet": r"quiet",
    "failed": r"link failed",
    "unknown": rf"unknown (?P<session>{SESSION})",
    "wrong": r"wrong line: (?P<reason>form|unknown|twice)",
    "again": rf"again f(?P<number>[1-9]\d*) to (?P<peer>{NAME})",
    "nothing": rf"nothing to send again in (?P<session>{SESSION})",
    "turn": rf"turn (?P<session>{SESSION}) at (?P<node>{NAME}):(?P<labels>( {NAME}(\({NAME}:(int|text)(,{NAME}:(int|text))*\))?)+)",
    "waits": rf"waits (?P<session>{SESSION})",
    "over": rf"over (?P<session>{SESSION})",
    "id": rf"id (?P<session>{SESSION}) (?P<digest>[0-9a-f]{{64}})",
}
# The refusals of a delivery, and of a start, an act and an abandonment (docs/reference.md).
REFUSALS = re.compile(
    rf"malformed at \d+|unknown-graph|bad-cast|unknown-peer {NAME}|bad-session|joined|cache-full|sessions-full|unknown-session|not-waiting|bad-frame-tag|"
    rf"no-such-view|bad-time item \d+ got \d+ least \d+|bad-evidence item \d+|bad-opening {NAME}|not-your-turn|no-such-label|bad-values {NAME}|time-spent"
)


class Ended(Exception):
    """The process has ended, with this status."""

    def __init__(self, status):
        super().__init__(f"the process has ended, with status {status}")
        self.status = status


class NoAnswer(Exception):
    """No answer came in time."""


class Strange(Exception):
    """An answer of no form."""


def spelled(value):
    """Returns a number or a text as a line has it."""
    if isinstance(value, int):
        return str(value)
    return '"' + "".join(chr(it) if 0x21 <= it <= 0x7E and it not in b'"\\' else f"\\x{it:02x}" for it in value.encode()) + '"'


def value_of(word):
    """Returns the number or the text that is written so."""
    if not word.startswith('"'):
        return int(word)
    return re.sub(rb"\\x([0-9a-fA-F]{2})", lambda it: bytes([int(it[1], 16)]), word[1:-1].encode()).decode()


class Answer:
    """An answer, read: `kind` is that of a step (started, sent, received, abandoned, refused) or one of OTHERS, and the rest is what its form has."""

    def __init__(self, text):
        self.text, self.unsent = text, text.startswith("unsent ")
        line = text[7:] if self.unsent else text
        self.step = self.session = self.label = self.peer = self.reason = self.node = self.digest = None
        self.values = {}
        for kind, form in run_lines.FORMS:
            found = form.fullmatch(line)
            if found:
                self.kind, self.step = kind, run_lines.Line(0, kind, found)
                self.session, self.peer = self.step.session, self.step.peer
                self.label = self.step.word if kind in ("sent", "received") else None
                self.reason = self.step.word if kind == "refused" else None
                self.values = {name: value_of(word) for name, _, word in (it.partition("=") for it in self.step.values)}
                break
        else:
            kind, found = next(((kind, it) for kind, form in OTHERS.items() for it in [re.fullmatch(form, line)] if it), (None, None))
            if found is None:
                raise Strange(text)
            self.kind = kind
            for name, word in found.groupdict().items():
                setattr(self, name, word)
        if self.reason and self.kind == "refused" and not REFUSALS.fullmatch(self.reason):
            raise Strange(text)
        if self.unsent and self.kind not in ("sent", "again"):
            raise Strange(text)


class Served:
    """A process that runs `serve`. `seconds` is how long an answer may take that has no limit of its own; it only ends a hang."""

    def __init__(self, command, err=None, seconds=120):
        self.seconds, self.unread = seconds, b""
        self.process = subprocess.Popen(command, stdin=subprocess.PIPE, stdout=subprocess.PIPE, stderr=err, bufsize=0)
        self.answers = select.poll()
        self.answers.register(self.process.stdout, select.POLLIN | select.POLLHUP)

    def say(self, line):
        """Gives it a line, as text or as bytes, or lines with a line feed between them."""
        try:
            rest = memoryview((line.encode() if isinstance(line, str) else line) + b"\n")
            while rest:
                rest = rest[self.process.stdin.write(rest) :]
        except (BrokenPipeError, ValueError):
            raise Ended(self.process.wait()) from None

    def answer(self, seconds=None):
        """Returns its next line of answer, without the line feed."""
        end = time.monotonic() + (self.seconds if seconds is None else seconds)
        while b"\n" not in self.unread:
            left = end - time.monotonic()
            if left <= 0 or not self.answers.poll(left * 1000):
                raise NoAnswer(f"no answer in time: {self.unread!r}")
            piece = os.read(self.process.stdout.fileno(), 65_536)
            if not piece:
                raise Ended(self.process.wait())
            self.unread += piece
        line, _, self.unread = self.unread.partition(b"\n")
        return line.decode()

    def ask(self, line, seconds=None):
        """Gives it a line and returns the answer."""
        self.say(line)
        return self.answer(seconds)

    def quit(self):
        """Has it end, and returns its status."""
        self.say("quit")
        return self.close()

    def close(self):
        """Ends its input, and returns its status."""
        self.process.stdin.close()
        rest = self.process.stdout.read()
        self.process.stdout.close()
        if self.unread + rest:
            raise Strange(f"behind the last answer: {(self.unread + rest)[:200]!r}")
        return self.process.wait(self.seconds)

    def kill(self):
        """Ends it at once."""
        self.process.kill()


class Session:
    """A session, as an application keeps it."""

    def __init__(self, name):
        self.name, self.digest, self.values = name, None, {}
        # whether the last step was an own one, whether it is over here, when something was heard last and when a frame went out last, and when and how
        # often that goes out again
        self.spoke = self.over = False
        self.heard = self.sent = time.monotonic()
        self.due, self.agains = None, 0


class Policy:
    """How an application waits: milliseconds of a wait, seconds until a frame is sent again, for the first time and at most, how often that of a session that
    is over is sent again, and seconds without news after which a session is abandoned."""

    def __init__(self, wait=50, first=0.25, longest=4.0, most=8, patience=30.0):
        self.wait, self.first, self.longest, self.most, self.patience = wait, first, longest, most, patience

    def until_again(self, agains, taken):
        """Returns how long to wait if a frame was sent again so often, and answers take so many seconds."""
        return min(max(self.first, 2 * taken) * 2**agains, self.longest)

    def until_abandoned(self, taken):
        """Returns how long to wait for news if answers take so many seconds."""
        return max(self.patience, 20 * taken)


class Application:
    """Plays sessions as the principal of a process. `decides(session, node)` returns what is done at a turn: a label and its values."""

    def __init__(self, served, decides, policy=None):
        self.served, self.decides, self.policy = served, decides, policy or Policy()
        # the sessions that something is still to be done for, by their names here, and all others
        self.sessions, self.others = {}, {}
        # the lines of the steps, how often what was answered, and how many seconds the answers of others take of late
        self.lines, self.counts, self.taken = [], {}, 0.0

    def ask(self, line):
        """Asks, and returns the answer."""
        answer = Answer(self.served.ask(line))
        what = f"refused {answer.reason}" if answer.kind == "refused" else f"unsent {answer.kind}" if answer.unsent else answer.kind
        self.counts[what] = self.counts.get(what, 0) + 1
        if answer.step:
            self.lines.append(answer)
        return answer

    def is_ready(self):
        """Returns whether it answers: a principal that has opened its link answers at once."""
        return self.ask("turn s1").kind == "unknown"

    def start(self, graph, version, cast, **values):
        """Starts a session, acts if it is at its turn, and returns it, or nothing if it is refused. The values are for whoever decides."""
        answer = self.ask(f"start {graph} {version} {','.join(cast)}")
        if answer.kind != "started":
            return None
        session = self.joined(answer.session)
        session.values.update(values)
        self.goes_on(session)
        return session

    def joined(self, name):
        """Notes a session that is new here."""
        session = self.sessions[name] = Session(name)
        session.digest = self.ask(f"id {name}").digest
        return session

    def round(self):
        """Waits once, takes what has come, and then does what the clock asks for, as long as nothing else comes. What comes holds nothing back for ever."""
        came, now = self.takes(self.policy.wait), time.monotonic()
        while came and time.monotonic() < now + self.policy.longest:
            came = self.takes(0)
        now = time.monotonic()
        late = now - self.policy.longest if came else now
        for session in sorted((it for it in self.sessions.values() if it.due <= late), key=lambda it: it.due):
            self.sends_again(session, now)
            if self.takes(0):
                break

    def takes(self, wait):
        """Takes a delivery, and returns whether one came."""
        answer = self.ask(f"recv {wait}")
        if answer.kind == "received":
            session = self.sessions.get(answer.session) or self.joined(answer.session)
            session.values.update(answer.values)
            session.heard = time.monotonic()
            if session.spoke:
                self.taken += (session.heard - session.sent - self.taken) / 8
            session.spoke = False
            self.goes_on(session)
        elif answer.kind == "failed":
            time.sleep(self.policy.wait / 1_000)
        return answer.kind in ("received", "refused")

    def goes_on(self, session):
        """Acts if the session is at its turn."""
        while True:
            answer = self.ask(f"turn {session.name}")
            if answer.kind != "turn":
                break
            label, values = self.decides(session, answer.node)
            done = self.ask(" ".join(["act", session.name, label, *(f"{name}={spelled(value)}" for name, value in values.items())]))
            if done.kind != "sent":
                raise Strange(f"{label} at {answer.node}: {done.text}")
            session.spoke, session.sent = True, time.monotonic()
        session.over, session.agains, session.due = answer.kind == "over", 0, time.monotonic() + self.policy.until_again(0, self.taken)
        if session.over and not session.spoke:
            self.leaves(session)

    def sends_again(self, session, now):
        """Sends a session's last frame again, or gives the session up."""
        if session.over and session.agains == self.policy.most:
            self.leaves(session)
        elif not session.over and now - session.heard > self.policy.until_abandoned(self.taken):
            self.ask(f"abandon {session.name}")
            self.leaves(session)
        else:
            self.ask(f"again {session.name}")
            # (what was lost says nothing of how long an answer takes)
            session.agains, session.sent = session.agains + 1, now
            session.due = now + self.policy.until_again(session.agains, self.taken)

    def leaves(self, session):
        """Nothing more is to be done for a session."""
        self.others[session.name] = self.sessions.pop(session.name)

    def heard_the_end(self):
        """Returns the sessions of which this principal received the last message."""
        return [it for it in self.others.values() if it.over and not it.spoke]

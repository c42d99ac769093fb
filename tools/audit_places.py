"""Finds where the logs of a session stop fitting together, for an audit's `no`, and which two events clash.

The events of a session's logs stand in one order: by time, and at equal times what was sent before what was received. The first event is looked for with
which the beginning of that order has no walk any more. Whether a beginning has one says the program itself: it audits a log file of these events alone,
and the place is found by halving. If the walk is told, the beginning of the walk that has as many events is told with them, and a value that nobody
with a log has written or received in it is hidden.
"""
import os
import re
import subprocess
import tempfile

from texts import Graph, blocks_of, lines_outside, listed


class Event:
    """An event of a log: its role, the words of its line, the line's number and the offset of its first word."""

    def __init__(self, role, number, words):
        self.role, self.number, self.at = role, number, words[0][1]
        self.words = [it for it, _ in words]
        self.kind, self.label, self.time = self.words[0], self.words[1], int(self.words[2])
        self.values = dict(it.split("=", 1) for it in self.words[3:])

    def text(self):
        return " ".join(self.words)


class Session:
    """A session of a log file: the events of each role with a log, and the walk, if one is told."""

    def __init__(self, name, at):
        self.name, self.at, self.logs, self.walk, self.steps_at = name, at, {}, None, []

    def order(self):
        """Returns all events in their one order."""
        return sorted((it for log in self.logs.values() for it in log), key=lambda it: (it.time, it.kind != "sent"))


def sessions_of(text):
    """Returns the sessions of a right log file, by name."""
    found, session, role = {}, None, None
    for number, _, words in lines_outside(text):
        first = words[0][0]
        if first == "session":
            session = found[words[1][0]] = Session(words[1][0], words[0][1])
        elif first == "log":
            role = words[1][0]
            session.logs[role] = []
        elif first in ("sent", "received"):
            session.logs[role].append(Event(role, number, words))
        elif first == "walk":
            session.walk = [step_of(it) for it, _ in words[1:]]
            session.steps_at = [at for _, at in words[1:]]
    return found


def step_of(word):
    """Returns the label of a walk's step, and its values by variable."""
    label, _, rest = word.lstrip("*").partition("(")
    return label, dict(it.split("=", 1) for it in re.findall(r'\w+=(?:"[^"]*"|[^,()"]*)', rest))


class Auditor:
    """Asks the program about beginnings of a session's events."""

    def __init__(self, program, text, session):
        self.program, self.session, self.order = program, session, session.order()
        block, _, _ = blocks_of(text)[0]
        self.block, self.graph = block, Graph(block)
        self.walks = {}

    def has_log(self, role):
        return role in self.session.logs

    def counted(self):
        """Returns for each beginning of the walk that is told how many events it has, and whether its last one is a receipt."""
        counts, count = [(0, False)], 0
        for label, _ in self.session.walk:
            if label not in self.graph.edges:
                return counts
            received = self.has_log(self.graph.receiver(label))
            count += self.has_log(self.graph.sender(label)) + received
            counts.append((count, received))
        return counts

    def shown(self, length, whole):
        """Returns the walk's beginning of this length, in which what nobody with a log wrote or received is hidden. If it isn't whole its last
        receipt is missing."""
        steps = self.session.walk[:length]
        current, seen = {}, set()
        for place, (label, values) in enumerate(steps):
            edge = self.graph.edges[label]
            current.update({name: place for name in edge.writes})
            if self.has_log(self.graph.sender(label)):
                seen |= {(place, name) for name in values}
            if self.has_log(self.graph.receiver(label)) and (whole or place < length - 1):
                seen |= {(current[name], name) for name in edge.reads if name in current}
        told = []
        for place, (label, values) in enumerate(steps):
            inner = ",".join(f"{name}={value if (place, name) in seen else '?'}" for name, value in values.items())
            told.append(f"{label}({inner})" if values else label)
        return " ".join(["walk", *told])

    def walks_for(self, count):
        """Returns the lines that may tell a walk of so many events."""
        if self.session.walk is None:
            return [""]
        found = []
        for length, (events, received) in enumerate(self.counted()):
            if events == count:
                found.append(self.shown(length, True))
            if received and events == count + 1:
                found.append(self.shown(length, False))
        return found

    def explains(self, count):
        """Returns whether the first so many events have a walk."""
        first = set(map(id, self.order[:count]))
        logs = []
        for role, log in self.session.logs.items():
            logs += [f"log {role}"] + [it.text() for it in log if id(it) in first]
        for walk in self.walks_for(count):
            lines = "\n".join([f"session {self.session.name}", *logs, walk, ""])
            with tempfile.NamedTemporaryFile(suffix=".logs") as file:
                file.write(b"graph {\n" + self.block.rstrip(b"\n") + b"\n}\n" + lines.encode("latin-1"))
                file.flush()
                ran = subprocess.run([self.program, "audit", file.name], stdin=subprocess.DEVNULL, stdout=subprocess.PIPE, stderr=subprocess.DEVNULL, timeout=120)
            if ran.stdout.startswith(f"audit {self.session.name} yes\n".encode()):
                self.walks[count] = ran.stdout.decode("latin-1").split("\n")[1].partition(": ")[2]
                return True
        return False

    def first_without(self):
        """Returns how many events of the order have a walk, at most."""
        low, high = 0, len(self.order)
        if self.explains(high):
            return high
        while high - low > 1:
            half = (low + high) // 2
            low, high = (half, high) if self.explains(half) else (low, half)
        return low


def cut(walk, most=160):
    """A walk whose last steps are shown if it is long."""
    return walk if len(walk) <= most else "... " + walk[-most:].partition(" ")[2]


def values_wrong(graph, names, values):
    """Returns what is wrong with the values by variable of what these variables are to have, in words, if something is."""
    lacks, more = [it for it in names if it not in values], [it for it in values if it not in names]
    other = [it for it in names if values.get(it, "?") != "?" and (values[it][0] == '"') != (graph.variables[it] == "text")]
    return f"has no value of {listed(lacks)}" if lacks else f"has a value of {listed(more)}" if more else f"has a value of {listed(other)} of another type" if other else None


def wrong_step(graph, session):
    """Returns the offset of the first step of the walk that is told which is none of the graph's, or hasn't the values that it is to have, and sentences."""
    node, before = graph.start(), ""
    for place, ((label, values), at) in enumerate(zip(session.walk, session.steps_at), 1):
        edge = graph.edges[label]
        if edge.source != node:
            return at, [f"Step {place} of the walk that is told, {label}, leaves {edge.source}, and the walk is at {node} {before or 'as it begins'}, which {listed(graph.leaving(node))} "
                        "may leave. So the walk is none of the graph's, and no logs agree with it."]
        wrong = values_wrong(graph, edge.writes, values)
        if wrong:
            return at, [f"Step {place} of the walk that is told, {label}, {wrong}, and its edge writes {listed(edge.writes)}. A step is to have each of these in the graph's order, in "
                        "(VAR=VALUE,..), with ? for the value of what nobody with a log wrote or received. So no logs agree with this walk."]
        node, before = edge.target, f"behind {label}"
    return None


def of_no(program, text, session):
    """Returns the offset of the first event with which no walk explains the events, and sentences about it; or that of a wrong step of the walk."""
    auditor = Auditor(program, text, session)
    wrong = wrong_step(auditor.graph, session) if session.walk is not None else None
    if wrong:
        return wrong
    count = auditor.first_without()
    if count == len(auditor.order):
        return session.at, [f"Each event of {session.name} is explained by this walk, which is not the one that is told: {cut(auditor.walks[count])}. Look to the values that nobody "
                            "with a log has written or received, which must be hidden, and to steps behind the last event."]
    event = auditor.order[count]
    walk = auditor.walks.get(count, "")
    end = "have no walk any more" if session.walk is None else "don't fit the walk that is told any more"
    told = [f"With this event of {event.role} the events of {session.name}, in the order of their times, {end}."]
    if count:
        told.append(f"The {count} before it {'have' if count > 1 else 'has'} this one: {cut(walk)}.")
    return event.at, told + of_event(auditor, event)


def steps_before(auditor, event):
    """Returns the steps up to that of an event, in order: of each the label, its event of sending if the sender has a log, and the values that are told."""
    session, graph = auditor.session, auditor.graph
    place = auditor.order.index(event)
    sent = [it for it in auditor.order[: place + 1] if it.kind == "sent" and it.label in graph.edges]
    if session.walk is None:
        return [(it.label, it, it.values) for it in sent]
    length = next((length for length, (count, _) in enumerate(auditor.counted()) if count > place), len(session.walk))
    logged, found = iter(sent), []
    for label, values in session.walk[:length]:
        found.append((label, next(logged, None) if auditor.has_log(graph.sender(label)) else None, values))
    return found


def of_values(auditor, event):
    """Tells of each value of an event that isn't the one which was last written where that one was written."""
    told, walked, edge = [], auditor.session.walk is not None, auditor.graph.edges[event.label]
    steps = list(enumerate(steps_before(auditor, event), 1))
    for name in edge.writes if event.kind == "sent" else edge.reads:
        place, (label, sent, values) = next((it for it in reversed(steps) if name in auditor.graph.edges[it[1][0]].writes), (0, ("", None, {})))
        value = event.values.get(name)
        if walked and label and values.get(name, value) != value:
            told.append(f"The walk that is told has {name}={values[name]} at its step {place}, {label}{', though a log has its value' if values[name] == '?' else ''}.")
        elif sent and sent is not event and sent.values.get(name, value) != value:
            told.append(f"{name} was written last with {label}, in line {sent.number}: {sent.text()}.")
    return told


def of_turn(auditor, event):
    """Tells of a sending that the receipt before it is missing in its log, or whose turn it was."""
    graph, before = auditor.graph, [it for it in steps_before(auditor, event) if it[1] is not event]
    if auditor.session.walk is not None:
        told = auditor.session.walk[len(before) :]
        if not told:
            return ["The walk that is told ends before it."]
        return of_values(auditor, event) if told[0][0] == event.label else [f"The walk that is told has {told[0][0]} as its step {len(before) + 1}."]
    if not before:
        first = graph.nodes[graph.start()]
        return [f"{graph.name} begins with a step of {first}."] if first != event.role else []
    label, sent, _ = before[-1]
    receiver = graph.receiver(label)
    who = f"{sent.role} sent it in line {sent.number}: {sent.text()}" if sent else f"it is a step of {graph.sender(label)}, as the walk tells it"
    if receiver != event.role:
        return [f"Before it stands {label}, which goes to {receiver}: {who}. So it was the turn of {receiver}."]
    if not any(it.kind == "received" and it.label == label and it.time < event.time and (not sent or it.time == sent.time) for it in auditor.session.logs[event.role]):
        return [f"The log of {event.role} has no receipt of {label} before it, and {who}. Its line `received {label}` is missing, or stands at another time."]
    return []


def of_event(auditor, event):
    """Tells that an event stands before an earlier one in its log, or is none of its role's; of a receipt how its sending stands in the sender's log, or
    that it is missing, and where other values were written; of a sending that a receipt is missing before it."""
    graph, session = auditor.graph, auditor.session
    own = session.logs[event.role]
    earlier = next((it for it in own[own.index(event) + 1 :] if (it.time, it.kind != "sent") < (event.time, event.kind != "sent")), None)
    if earlier:
        return [f"Behind it in its log, in line {earlier.number}, stands an event of an earlier time: {earlier.text()}."]
    if event.label not in graph.edges:
        return []
    edge, end = graph.edges[event.label], graph.sender(event.label) if event.kind == "sent" else graph.receiver(event.label)
    if end != event.role:
        return [f"{event.label} is {event.kind} by {end}, and not by {event.role}: this is another role's line."]
    names = edge.writes if event.kind == "sent" else edge.reads
    wrong = values_wrong(graph, names, event.values)
    if wrong:
        return [f"The line {wrong}, and {event.label} {'writes' if event.kind == 'sent' else 'reads'} {listed(names)}."]
    if event.kind == "sent":
        return of_turn(auditor, event)
    sender, steps = graph.sender(event.label), steps_before(auditor, event)
    if session.walk is not None and steps and steps[-1][0] != event.label:
        return [f"The walk that is told has {steps[-1][0]} as its step {len(steps)}."]
    log = session.logs.get(sender)
    if log is None:
        return of_values(auditor, event)
    sent = next((it for it in log if it.kind == "sent" and it.time == event.time), None)
    if sent and sent.label == event.label:
        # (what it wrote itself stands in its line)
        return of_values(auditor, event) or [f"What {sender} sent at that time stands in line {sent.number}: {sent.text()}."]
    if sent:
        return [f"What {sender} sent at that time stands in line {sent.number}: {sent.text()}."]
    if not any(it.time >= event.time for it in log):
        return [f"The log of {sender} ends before time {event.time} and has no such sending: perhaps {sender} was stopped when it had sent the frame and not yet written its line. docs/auditing.md "
                "(A line that is missing) says what to do then."]
    return [f"The log of {sender} has no sending at time {event.time}."]


def of_clash(session, time):
    """Returns the offset of the second of two events that claim one moment, and a sentence about them."""
    order = [it for it in session.order() if it.time == time]
    for kind in ("sent", "received"):
        found = [it for it in order if it.kind == kind]
        if len(found) > 1:
            one, two = sorted(found[:2], key=lambda it: it.number)
            return two.at, [f"At time {time} {two.role} has {two.text()}, and in line {one.number} {one.role} has {one.text()}: of one session no two messages are "
                            f"{'sent' if kind == 'sent' else 'received'} at one time. One of the two lines isn't of this session, or a log is wrong."]
    return session.at, []


def places_of(program, file, most=5):
    """Returns for each answer of an audit that isn't yes the offset and the sentences, with the file's text. The file is audited for it anew."""
    if not os.path.isfile(file):
        return b"", []
    ran = subprocess.run([program, "audit", file], stdin=subprocess.DEVNULL, stdout=subprocess.PIPE, stderr=subprocess.DEVNULL)
    answers = re.findall(rb"^audit (\w+) (no|clash at time (\d+))$", ran.stdout, re.M)
    if not answers:
        return b"", []
    with open(file, "rb") as it:
        text = it.read()
    sessions, found = sessions_of(text), []
    for name, what, time in answers[:most]:
        session = sessions[name.decode()]
        found.append(of_no(program, text, session) if what == b"no" else of_clash(session, int(time)))
    if not text.endswith(b"\n"):
        found.append((None, ["The last line of the file has no end, so it may be cut, even in the midst of a number or a name."]))
    if len(answers) > most:
        found.append((None, [f"{len(answers) - most} more sessions are not explained."]))
    return text, found

#!/usr/bin/env python3
"""Says of each refusal in a replay what was wrong.

    tools/why.py SCHEDULE     for each step that is refused its line in the report, `: `, and a sentence

As a module: `refusals(data)` gives for the bytes of a schedule the sentences by the steps' numbers. Which frames there are, and what is refused, comes from
tools/model.py, whose lines are the program's: `.ci/check-tools` compares them. The exit status is 0, or 1 if the file can't be read or is no schedule, or 2
if the arguments are wrong.
"""
import signal
import sys

sys.dont_write_bytecode = True
import model

# Refusals of which the sentence says no more than the rule; NAME is the principal.
RULES = {
    'unknown-graph': 'the schedule has no graph with this digest and such a role',
    'bad-session': "the session's identifier is not that of the cast in the frame",
    'joined': 'NAME joined this session before, and joins none twice',
    'cache-full': 'NAME joined 65,536 sessions',
    'sessions-full': 'NAME has 4,096 live sessions',
    'time-spent': 'the session has come to the last time there is',
}


def listed(words, none='none'):
    """Words as a sentence has them."""
    words = list(words)
    return ' and '.join([', '.join(words[:-1]), words[-1]] if len(words) > 1 else words) or none


def fields_of(graph, text):
    """The parts of an item's tagged text by their names."""
    found = {'session': text[9:41], 'sender': text[41:42], 'target': text[42:43], 'label': text[43:45], 'time': text[45:49]}
    at = 49
    for variable in graph.variables:
        size = 33 if text[at:at + 1] == b'\1' else 1
        found[f'commitment of {variable.name}'] = text[at:at + size]
        at += size
    return found


class Crafter(model.Crafter):
    """Makes the frame of a craft, and keeps what its tags are on."""

    def tag(self, source, text):
        """A tag."""
        tag = super().tag(source, text)
        if source[0] == 'key':
            self.run.made[tag] = (source[1], text)
        return tag


class Watched(model.Run):
    """A run that keeps why each step was refused, what each tag was made on, and the opening of each commitment."""

    def __init__(self, schedule):
        self.why, self.made, self.openings = {}, {}, {}
        super().__init__(schedule)

    def note(self, sid, openings):
        """Keeps openings by their commitments."""
        self.openings.update((model.sha256(model.text_of_commitment(sid, opening)), opening) for opening in openings)

    def outcome(self, place, step):
        """Takes a step."""
        if step[0] == 'craft':
            craft = step[1]
            self.note(model.sha256(model.text_of_session(craft.session.cast)), craft.know + [one for item in craft.items for one in item[2]])
            self.frames.append(model.bytes_of(Crafter(self, craft).frame()))
            return f'crafted f{len(self.frames)}'
        line = super().outcome(place, step)
        for pair, text in self.notes[-1].made:
            version = 2 if text.startswith((b'sg-item-2', b'sg-frame-2')) else 1
            self.made[model.tag_of(version, self.schedule.keys[frozenset(pair)], text)] = (frozenset(pair), text)
        return line

    def start(self, place, who, declared):
        """A start."""
        graph = declared.graph
        return self.watched(place, lambda: super(Watched, self).start(place, who, declared),
                            lambda why: cast_fault(graph, declared.cast, graph.nodes[0].role, who) if why == 'bad-cast' else self.rule(who, why))

    def abandon(self, place, who, declared):
        """An abandonment."""
        return self.watched(place, lambda: super(Watched, self).abandon(place, who, declared), lambda why: f'{who.name} has no such live session')

    def act(self, place, who, declared, label, values):
        """An act."""
        sid = model.sha256(model.text_of_session(declared.cast))
        self.note(sid, [model.Opening(variable, model.confounder_of(place, variable), value) for variable, value in values.items()])
        return self.watched(place, lambda: super(Watched, self).act(place, who, declared, label, values),
                            lambda why: self.act_fault(who, declared.graph, sid, label, values, why))

    def deliver(self, place, who, kind, what, change):
        """A delivery."""
        return self.watched(place, lambda: super(Watched, self).deliver(place, who, kind, what, change),
                            lambda why: self.fault(who, what if kind == 'bytes' else what <= len(self.frames) and model.changed(
                                self.frames[what - 1], change), why))

    def watched(self, place, take, sentence):
        """Takes a step; if it is refused, keeps a sentence."""
        try:
            return take()
        except model.Refused as refusal:
            self.why[place] = sentence(str(refusal))
            raise

    def rule(self, who, why):
        """The sentence that says the rule."""
        word = why.split(' ')[0]
        if word == 'unknown-peer':
            return f'{who.name} shares no key with {why.split(" ")[1]}'
        return RULES.get(word, why).replace('NAME', who.name)

    def act_fault(self, who, graph, sid, label, values, why):
        """Why an act is refused."""
        if why == 'unknown-session':
            return f'{who.name} is in no such live session: {self.standing(who, sid)}'
        session = who.session(sid)
        node = graph.nodes[session.place()]
        if why == 'not-your-turn':
            return f'{who.name} waits: the session is at {node.name}, where {graph.roles[node.role]} acts'
        if why == 'no-such-label':
            leaving = listed(graph.edges[other].label for other in graph.leaving(session.place()))
            return f'the session is at {node.name}, which {leaving} may leave, and not {graph.edges[label].label}'
        if why.startswith('bad-values'):
            return values_fault(graph, graph.edges[label], values, why.split(' ')[1])
        return self.rule(who, why)

    def standing(self, who, sid):
        """Whether a principal joined a session that isn't live."""
        return 'it joined it, and the session is over or was left' if any(sid == joined for joined, _ in who.joins) else 'it has not joined it'

    def fault(self, who, data, why):
        """Why a delivery is refused."""
        if why == 'no-frame':
            return f'{len(self.frames)} frames are recorded until here'
        if why.startswith('malformed'):
            return f'the bytes are no frame: they have {len(data)} bytes, and the field at {why.split(" ")[2]} is cut short or out of its range'
        frame = model.FrameReader(data).frame()
        if why == 'unknown-session':
            live = who.live.get(frame.sid)
            if live:
                graph, role = live[0].graph, live[0].role
                wanted = graph.roles[frame.receiver] if frame.receiver < len(graph.roles) else 'a role that the graph lacks'
                return (f'the frame is for {wanted}, and {who.name} is {graph.roles[role]} in this session' if role != frame.receiver
                        else f'the frame is of version {frame.version}, and the session is not')
            return f"the frame doesn't join, and {who.name} is in no such live session: {self.standing(who, frame.sid)}"
        if why == 'not-waiting':
            return f'it is the turn of {who.name}'
        found = {'bad-frame-tag': self.seal_fault, 'no-such-view': self.view_fault, 'bad-time': self.time_fault,
                 'bad-evidence': self.evidence_fault, 'bad-opening': self.opening_fault}.get(why.split(' ')[0])
        if why == 'bad-cast':
            graph = next(graph for graph in who.graphs if graph.digest() == frame.join.digest and frame.receiver < len(graph.roles))
            return cast_fault(graph, frame.join, frame.receiver, who, frame.sender)
        if found is None:
            return self.rule(who, why)
        session = who.session_to_join(frame, model.Notes()) if frame.join else who.session_to_go_on(frame)
        return found(session, frame, why)

    def seal_fault(self, session, frame, _):
        """Why a frame's tag is wrong."""
        if frame.sender >= len(session.cast.names):
            return 'the sender is no role of the cast'
        wanted = f'the key of {listed(session.pair(frame.sender))}'
        if not any(frame.tag):
            return f'its tag is zeros, and not by {wanted}'
        pair = self.made.get(frame.tag, (None,))[0]
        if pair is None:
            return 'nobody made its tag'
        return f'its tag is by the key of {listed(sorted(pair))}, and not by {wanted}' if set(pair) != set(session.pair(frame.sender)) else 'its tag is on other bytes'

    def view_fault(self, session, frame, _):
        """Which of its causes `no-such-view` has."""
        graph, items, role = session.graph, frame.items, session.graph.roles[session.role]
        if any(item.label >= len(graph.edges) for item in items):
            return 'an item has a label that the graph lacks'
        name = lambda label: graph.edges[label].label
        own, shown = session.own_label(), model.sight(items)
        when = 'before its first step' if own is None else f'after {name(own)}'
        views = [view for view in model.views_in_order(graph, session.role) if view[0] == own]
        labels = [item.label for item in items]
        if (own, shown) not in views:
            for _, other in views:
                if [label for label, _ in other] == labels:
                    place = next(place for place, (one, two) in enumerate(zip(shown, other)) if one != two)
                    return (f'item {place + 1}, {name(labels[place])}, has commitments of {listed(graph.names(shown[place][1]), "nothing")}, and must have '
                            f'them of {listed(graph.names(other[place][1]), "nothing")}')
            takes = list(dict.fromkeys(' '.join(name(label) for label, _ in other) for _, other in views))
            more = f' and {len(takes) - 6} more' if len(takes) > 6 else ''
            return f'it shows {" ".join(map(name, labels))}, and {when} {role} takes {", ".join(takes[:6]) or "no frame"}{more}'
        for place, item in enumerate(items):
            if item.role != graph.sender(item.label):
                return f'item {place + 1}, {name(item.label)}, is not of its sender'
        if items[-1].role != frame.sender:
            return f'its last step, {name(labels[-1])}, is of {graph.roles[items[-1].role]}, and the frame is from {graph.roles[frame.sender]}'
        for place, item in enumerate(items):
            wanted = model.tagged_roles(graph, items, place)
            if sorted(item.tags) != wanted:
                has = listed((graph.roles[other] if other < len(graph.roles) else 'a role that the graph lacks' for other in sorted(item.tags)), 'nobody')
                return f'item {place + 1}, {name(item.label)}, has tags for {has}, and must have them for {listed((graph.roles[other] for other in wanted), "nobody")}'
        opened = [graph.variables[opening.variable].name if opening.variable < len(graph.variables) else 'one that the graph lacks'
                  for opening in frame.openings]
        return f'it opens {listed(opened, "nothing")}, and {name(labels[-1])} reads {listed(graph.names(graph.edges[labels[-1]].reads), "nothing")}'

    def time_fault(self, session, frame, why):
        """Which time is too low."""
        _, _, place, _, got, _, least = why.split(' ')
        before = f'item {int(place) - 1}' if place != '1' else f'the own last step of {session.cast.names[session.role]}'
        return f'item {place}, {session.graph.edges[frame.items[int(place) - 1].label].label}, has time {got}, and {before} had {int(least) - 1}'

    def evidence_fault(self, session, frame, why):
        """What an item's tag is on."""
        place = int(why.split(' ')[2])
        item = frame.items[place - 1]
        what = f'item {place}, {session.graph.edges[item.label].label}: its tag for {session.graph.roles[session.role]}'
        tag, pair = item.tags[session.role], session.pair(item.role)
        if not any(tag):
            return f'{what} is zeros'
        made_by, text = self.made.get(tag, (None, b''))
        if made_by is None or not text.startswith(b'sg-item'):
            return f'{what} was made by nobody on an item'
        if set(made_by) != set(pair):
            return f'{what} is by the key of {listed(sorted(made_by))}, and not by that of {listed(pair)}'
        commitments = model.latest(session.own() + frame.items[:place])
        wanted, has = (fields_of(session.graph, one) for one in (session.item_text(item, session.role, commitments), text))
        other = [part for part in wanted if wanted[part] != has[part]]
        lacks = [part for part in other if part.startswith('commitment') and len(has[part]) == 1]
        if lacks and lacks == other:
            names = listed(part.replace('commitment of ', '') for part in lacks)
            return f'{what} was made without commitments of {names}: in a `craft` line they stand behind `know`, where no item has them'
        # (commitments are of their session, so in another one all of them are others)
        return f'{what} was made on another {listed(part for part in other if "session" not in other or not part.startswith("commitment"))}'

    def opening_fault(self, session, frame, why):
        """What is opened, and what was committed."""
        graph, name = session.graph, why.split(' ')[1]
        opening = next(one for one in frame.openings if graph.variables[one.variable].name == name)
        kind = graph.variables[opening.variable].kind
        if model.kind_of(opening.value) != kind:
            return f'{name} is opened as {model.spelled(opening.value)}, which is no {kind}'
        committed = self.openings.get(model.latest(session.own() + frame.items)[opening.variable])
        return f'{said(name, opening)} is opened, and {said(name, committed) if committed else "something else"} was committed'


def cast_fault(graph, cast, role, who, sender=0):
    """Why a cast isn't one of the graph with this principal in this role."""
    names = cast.names
    if sender >= len(names):
        return f'the sender is role {sender}, counted from 0, and the cast has {len(names)} principals'
    if len(names) != len(graph.roles):
        return f'the cast has {len(names)} principals, and {graph.name} has {len(graph.roles)} roles: {listed(graph.roles)}'
    twice = next((name for place, name in enumerate(names) if name in names[:place]), None)
    if twice is not None:
        return f'{twice} stands twice in the cast'
    return f'the cast has {names[role]} as {graph.roles[role]}, and not {who.name}'


def values_fault(graph, edge, values, name):
    """Why the value of a variable isn't one that an edge writes."""
    variable = next(place for place, one in enumerate(graph.variables) if one.name == name)
    if variable not in edge.writes:
        return f'{edge.label} writes {listed(graph.names(edge.writes), "nothing")}, and not {name}'
    if variable not in values:
        return f'{edge.label} writes {name}, and no value of it is given'
    return f'{name} is {model.spelled(values[variable])}, which is no {graph.variables[variable].kind}'


def said(name, opening):
    """An opening as a schedule has it."""
    return f'{name}={model.spelled(opening.value)}#{int.from_bytes(opening.confounder[:8], "big")}'


def watched(data):
    """The run of a schedule's bytes."""
    schedule = model.ScheduleReader(data).read()
    for graph in schedule.graphs:
        model.check_graph(graph)
    return Watched(schedule)


def refusals(data):
    """For each refused step of a schedule, by its number, what was wrong."""
    return watched(data).why


def main(words):
    """Writes the sentences, and gives the status."""
    if len(words) != 1 or words[0].startswith('-'):
        sys.stderr.write(__doc__)
        return 2
    try:
        run = watched(model.read_file(words[0]))
    except OSError as fault:
        sys.stderr.write(f"why.py: {words[0]} can't be read: {fault.strerror}\n")
        return 1
    except model.Refused as refusal:
        sys.stderr.write(f'why.py: {words[0]} has a graph that is refused: {refusal}\n')
        return 1
    except (ValueError, LookupError, TypeError, AttributeError, StopIteration, RuntimeError):
        sys.stderr.write(f'why.py: {words[0]} is no schedule: `./sessiongraph replay {words[0]}` says which line is wrong\n')
        return 1
    model.write_lines(f'{run.lines[place - 1]}: {run.why[place]}' for place in sorted(run.why))
    return 0


if __name__ == '__main__':
    signal.signal(signal.SIGPIPE, signal.SIG_DFL)
    sys.exit(main(sys.argv[1:]))

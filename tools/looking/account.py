"""What a page tells of a run, step by step: from a schedule, its report, and the model's run of the schedule.

The report's lines stand in the page as they are. Of each step it says besides which checks were made, with the values that they compare; the
frame that was made or delivered; what the principal holds afterwards; and the walk so far. All of it is looked up in the model's own state. What
is looked up must agree with the report: of the checks, that the first one whose values don't fit is the report's reason, word by word; of the
walk, that it ends as the report's line of the session. If something doesn't agree, `Disagreement` is raised and no page is made.
"""
import model

# The checks in the order in which they are made, each with what it asks.
CHECKS = {
    'no-frame': 'The frame was recorded',
    'malformed': 'The bytes are a frame',
    'unknown-graph': 'The graph is known by its digest',
    'bad-cast': 'The cast has everybody once, in the right roles',
    'unknown-peer': 'A key is shared with each principal of the cast',
    'bad-session': 'The session identifier is that of the cast',
    'joined': 'The session was not joined before',
    'cache-full': 'There is room for one more join',
    'sessions-full': 'There is room for one more live session',
    'unknown-session': 'The session is live here',
    'not-waiting': 'The session waits for a frame',
    'not-your-turn': 'The session is at this role\'s turn',
    'no-such-label': 'The label leaves the session\'s node',
    'bad-values': 'The values are those that the edge writes',
    'time-spent': 'There is a time left',
    'bad-frame-tag': 'The frame\'s tag is right under the key shared with its sender',
    'no-such-view': 'Some walk shows this role these labels since its own last step',
    'bad-time': 'Times rise, from the own last one',
    'bad-evidence': 'Each earlier step has its sender\'s tag, on the current commitments',
    'bad-opening': 'Each opening opens the current commitment',
}


# From where frames come that nobody is known to have made; no principal has a name with a space.
NETWORK = 'the network'


class Disagreement(Exception):
    """What a page would say differs from the report."""


def short(data):
    """The first four of some bytes, in digits."""
    return data[:4].hex()


class Reader(model.ScheduleReader):
    """Reads a schedule, and keeps the words of its steps and what stands above its first line."""

    def __init__(self, data):
        super().__init__(data)
        self.words, self.at = [], 0

    def line(self, at):
        """Reads a line, whose place is kept."""
        self.at = at
        return super().line(at)

    def step(self, words):
        """A step, of which the words are kept."""
        super().step(words)
        self.words.append(words)

    def heading(self):
        """The comment at the top."""
        found = []
        for line in self.lines:
            if not line.startswith(b'#') and line.strip():
                break
            found.append(line[1:].decode('ascii', 'replace').strip())
        return ' '.join(line for line in found if line)


class Row:
    """A check that was made: its name, the values that it compares, each with whether it fits, and the reason if one doesn't."""

    def __init__(self, name, values=(), reason=None):
        self.name, self.values, self.reason = name, list(values), reason or name

    def fits(self):
        """Whether all values fit."""
        return all(fit for _, fit in self.values)


class Checks:
    """The checks of one step, in their order, up to the first that refuses it. They look at the model's state before the step."""

    def __init__(self, run, who):
        self.run, self.who, self.rows = run, who, []

    def add(self, name, *values, reason=None):
        """Adds a check, and says whether it fits."""
        self.rows.append(Row(name, values, reason))
        return self.rows[-1].fits()

    def refused(self, check, *words):
        """Whether a check of the model refuses."""
        try:
            check(*words)
            return False
        except model.Refused:
            return True

    def joining(self, graph, cast, role, more=True):
        """The checks on a cast up to the peers."""
        names = [f'{name} as {graph.roles[place]}' if place < len(graph.roles) else name for place, name in enumerate(cast.names)]
        fit = more and not self.refused(self.who.refuse_cast, graph, cast, role)
        if not self.add('bad-cast', (', '.join(names), fit)):
            return False
        peers = [(name, name in self.who.keys) for name in cast.names if name != self.who.name]
        missing = next((name for name, known in peers if not known), None)
        return self.add('unknown-peer', *peers, reason=f'unknown-peer {missing}')

    def room(self, sid, role, graph):
        """The checks on joins."""
        new = (sid, role) not in self.who.joins
        return (self.add('joined', (f'{self.run.session_word(sid)} as {graph.roles[role]} {"is new" if new else "was joined"}', new))
                and self.add('cache-full', (f'{len(self.who.joins)} of {model.JOINS:,} joins', len(self.who.joins) < model.JOINS))
                and self.add('sessions-full', (f'{self.who.count} of {model.LIVE_SESSIONS:,} live', self.who.count < model.LIVE_SESSIONS)))

    def start(self, declared):
        """The checks of a start."""
        cast, graph = declared.cast, declared.graph
        role = graph.nodes[0].role
        return (self.add('unknown-graph', (f'{short(cast.digest)} is {graph.name}', True)) and self.joining(graph, cast, role)
                and self.room(model.sha256(model.text_of_session(cast)), role, graph))

    def live(self, sid):
        """The check that a session is live, and the session."""
        session = (self.who.live.get(sid) or [None])[0]
        self.add('unknown-session', (self.run.session_word(sid) + (' is live' if session else ' is not live'), session is not None))
        return session

    def abandon(self, declared):
        """The check of an abandonment."""
        self.live(model.sha256(model.text_of_session(declared.cast)))

    def act(self, declared, label, values):
        """The checks of an act."""
        session = self.live(model.sha256(model.text_of_session(declared.cast)))
        if session is None:
            return False
        graph, place = session.graph, session.place()
        edge, node = graph.edges[label], graph.nodes[place]
        if not self.add('not-your-turn', (f'at {node.name}, a node of {graph.roles[node.role]}', session.at_turn())):
            return False
        if not self.add('no-such-label', (f'{edge.label} leaves {graph.nodes[edge.source].name}, at {node.name}', edge.source == place)):
            return False
        found, wrong = [], None
        for variable in sorted(set(edge.writes) | set(values)):
            kind = graph.variables[variable].kind
            fit = variable in values and variable in edge.writes and model.kind_of(values[variable]) == kind
            wrong = graph.variables[variable].name if wrong is None and not fit else wrong
            value = model.spelled(values[variable]) if variable in values else 'missing'
            found.append((f'{graph.variables[variable].name}={value}, {kind}', fit))
        return (self.add('bad-values', *found, reason=f'bad-values {wrong}')
                and self.add('time-spent', (f'{session.time():,} of {model.TIMES:,}', session.time() < model.TIMES)))

    def deliver(self, kind, what, change):
        """The checks of a delivery."""
        if kind == 'frame' and not 1 <= what <= len(self.run.frames):
            return self.add('no-frame', (f'f{what}, of {len(self.run.frames)} frames', False))
        data = what if kind == 'bytes' else model.changed(self.run.frames[what - 1], change)
        try:
            frame = model.FrameReader(data).frame()
        except model.Refused as refusal:
            return self.add('malformed', (f'{len(data):,} bytes', False), reason=str(refusal))
        self.add('malformed', (f'{len(data):,} bytes', True))
        session = self.session_to_join(frame) if frame.join else self.session_to_go_on(frame)
        return session is not None and self.frame(session, frame)

    def session_to_join(self, frame):
        """The checks of a frame that joins, and its session."""
        cast = frame.join
        graph = next((graph for graph in self.who.graphs if graph.digest() == cast.digest and frame.receiver < len(graph.roles)), None)
        known = f'{short(cast.digest)} is {graph.name}' if graph else f'{short(cast.digest)}, role {frame.receiver}'
        if not self.add('unknown-graph', (known, graph is not None)):
            return None
        if not self.joining(graph, cast, frame.receiver, frame.sender < len(cast.names)):
            return None
        made = model.sha256(model.text_of_session(cast))
        if not self.add('bad-session', (f'{short(frame.sid)} carried, {short(made)} of the cast', made == frame.sid)):
            return None
        return model.Session(graph, cast, frame.receiver, self.who.keys) if self.room(frame.sid, frame.receiver, graph) else None

    def session_to_go_on(self, frame):
        """The checks of a frame that continues, and its session."""
        session = next((session for session in self.who.live.get(frame.sid, [])
                        if session.role == frame.receiver and session.cast.version == frame.version), None)
        name = self.run.session_word(frame.sid)
        if not self.add('unknown-session', (name + (' is live' if session else ' is not live'), session is not None)):
            return None
        node = session.graph.nodes[session.place()]
        waits = self.add('not-waiting', (f'at {node.name}, a node of {session.graph.roles[node.role]}', not session.at_turn()))
        return session if waits else None

    def frame(self, session, frame):
        """The checks of a frame in its session."""
        return (self.frame_tag(session, frame) and self.view(session, frame) and self.times(session, frame) and self.evidence(session, frame)
                and self.openings(session, frame))

    def frame_tag(self, session, frame):
        """The check of the frame's own tag."""
        if frame.sender >= len(session.cast.names):
            return self.add('bad-frame-tag', (f'sender {frame.sender} is no role', False))
        made = session.tag(frame.sender, model.text_of_frame(frame.version, model.body_of(frame)))
        pair = ' and '.join(session.pair(frame.sender))
        return self.add('bad-frame-tag', (f'{short(frame.tag)} carried, {short(made)} by the key of {pair}', made == frame.tag))

    def view(self, session, frame):
        """The check of what is shown: of labels and written variables, and whether roles, tags and openings are the labels' own."""
        graph = session.graph
        shown = [self.run.label_word(graph, item.label) + self.written(graph, item.delta) for item in frame.items]
        own = 'at the start' if session.own_label() is None else f'after {graph.edges[session.own_label()].label}'
        known = (session.own_label(), model.sight(frame.items)) in model.views(graph, session.role)
        values = [(f'{own}: {", ".join(shown)}', known)]
        if known:
            values.append(('roles, tags and openings are those of the labels', session.is_fit(frame)))
        return self.add('no-such-view', *values)

    def written(self, graph, variables):
        """Variables that an item commits to."""
        names = [graph.variables[variable].name if variable < len(graph.variables) else str(variable) for variable in sorted(variables)]
        return f' with {" ".join(names)}' if names else ''

    def times(self, session, frame):
        """The check of times."""
        own = session.own()
        least, found, reason = own[-1].time + 1 if own else 1, [], None
        for place, item in enumerate(frame.items, 1):
            found.append((f'{session.graph.edges[item.label].label} at time {item.time}, least {least}', item.time >= least))
            if item.time < least:
                reason = f'bad-time item {place} got {item.time} least {least}'
                break
            least = item.time + 1
        return self.add('bad-time', *found, reason=reason)

    def evidence(self, session, frame):
        """The check of the tags of items."""
        found, reason = [], None
        for place in range(1, len(frame.items)):
            item = frame.items[place - 1]
            text = session.item_text(item, session.role, model.latest(session.own() + frame.items[:place]))
            carried, made = item.tags[session.role], session.tag(item.role, text)
            found.append((f'{session.graph.edges[item.label].label}: {short(carried)} carried, {short(made)} by the key of '
                          f'{" and ".join(session.pair(item.role))}', carried == made))
            if carried != made:
                reason = f'bad-evidence item {place}'
                break
        return self.add('bad-evidence', *found, reason=reason)

    def openings(self, session, frame):
        """The check of openings."""
        current, found, reason = model.latest(session.own() + frame.items), [], None
        for opening in frame.openings:
            variable = session.graph.variables[opening.variable]
            made = model.sha256(model.text_of_commitment(session.sid, opening))
            fit = model.kind_of(opening.value) == variable.kind and made == current[opening.variable]
            found.append((f'{variable.name}={model.spelled(opening.value)} gives {short(made)}, current {short(current[opening.variable])}', fit))
            if not fit:
                reason = f'bad-opening {variable.name}'
                break
        return self.add('bad-opening', *found, reason=reason)


class Watched(model.Run):
    """A run of the model of which it is looked up, before and after each step, what a page tells of it."""

    def __init__(self, schedule):
        self.sessions, self.kept, self.steps, self.event_steps, self.refused = {}, {}, [], [], []
        super().__init__(schedule)

    def listen(self, who):
        """Keeps each session that a principal joins, also one that is over at once."""
        join = who.join

        def joined(session):
            self.sessions[who.name, session.sid] = session
            join(session)

        who.join = joined

    def outcome(self, place, step):
        """Takes a step, with the checks that it meets before and what is held afterwards."""
        if place == 1:
            for who in self.principals.values():
                self.listen(who)
        checks = None
        if step[0] != 'craft':
            checks = Checks(self, self.principals[step[1]])
            getattr(checks, step[0])(*step[2:])
        events = len(self.events)
        line = super().outcome(place, step)
        self.event_steps += [place] * (len(self.events) - events)
        # (an abandonment is no event)
        self.refused.append(step[0] != 'craft' and len(self.events) == events and not (step[0] == 'abandon' and line.endswith(' abandoned')))
        if checks:
            self.compare(place, line[len(f'{step[1]} refused '):] if self.refused[-1] else None, checks)
        self.steps.append((checks, self.touched(step)))
        if self.steps[-1][1] is not None:
            key, session = self.steps[-1][1]
            self.kept.setdefault(key, []).append((place, self.held(session, step[0] == 'abandon')))
        return line

    def compare(self, place, told, checks):
        """The reason that is told, or none, must be that of the first check that doesn't fit."""
        found = next((row.reason for row in checks.rows if not row.fits()), None)
        if told != found:
            raise Disagreement(f'at step {place} the checks say {found or "accepted"}, and the report {told or "accepted"}')

    def touched(self, step):
        """The session that the last step changed, with its key in `sessions`."""
        if step[0] == 'craft' or self.refused[-1]:
            return None
        sid = model.sha256(model.text_of_session(step[2].cast)) if step[0] != 'deliver' else self.events[-1].sid
        return (step[1], sid), self.sessions[step[1], sid]

    def held(self, session, abandoned):
        """What a role keeps of a session: its place, last items, commitments and openings."""
        graph, current = session.graph, model.latest(session.told)
        node = graph.nodes[session.place()]
        known = [[graph.variables[variable].name, model.spelled(opening.value),
                  model.sha256(model.text_of_commitment(session.sid, opening)) == current.get(variable)]
                 for variable, opening in sorted(session.known.items())]
        items = [[graph.edges[item.label].label, graph.roles[item.role], item.time, graph.names(sorted(item.delta)),
                  [graph.roles[role] for role in sorted(item.tags)]] for item in model.last_of(session.told)]
        state = 'abandoned' if abandoned else 'over' if session.is_over() else 'at its turn' if session.at_turn() else 'waits'
        return {'node': node.name, 'state': state, 'time': session.time(), 'items': items, 'openings': known,
                'commitments': [[graph.variables[variable].name, short(digest)] for variable, digest in sorted(current.items())]}

    # Names.

    def session_word(self, sid):
        """A session's name, or its identifier if it has no name yet."""
        if sid in self.names:
            return self.names[sid]
        return f'x{self.strangers.index(sid) + 1}' if sid in self.strangers else f'session {short(sid)}'

    def label_word(self, graph, label):
        """A label's name, or its number if there is none."""
        return graph.edges[label].label if graph and label < len(graph.edges) else f'label {label}'

    def role_word(self, graph, role):
        """A role's name, or its number if there is none."""
        return graph.roles[role] if graph and role < len(graph.roles) else f'role {role}'

    def declared(self, sid):
        """The first declared session with an identifier."""
        name = self.names.get(sid)
        return self.schedule.sessions.get(name)


class Trace:
    """The walk of one session as it grows: each step with its label, whether it is filled in, and its text from a step of the run on."""

    def __init__(self, graph, honest):
        self.graph, self.honest, self.walk, self.steps, self.ends = graph, honest, [], [], []

    def add(self, place, label, writes):
        """Adds a step of the walk."""
        self.walk.append((label, writes))
        self.steps.append([self.graph.edges[label].label, self.graph.sender(label) not in self.honest, [[place, self.text(-1)]]])

    def text(self, at):
        """A step of the walk as a report has it."""
        return model.step_text(self.graph, self.honest, *self.walk[at])

    def take(self, place, event):
        """Goes on by an event."""
        if event.kind == 'sent':
            self.add(place, event.label, dict(event.values))
        if event.kind == 'received':
            after = max((at + 1 for at, item in enumerate(event.shown) if item.role in self.honest), default=0)
            if event.shown[after:]:
                start = self.graph.edges[self.walk[-1][0]].target if self.walk else 0
                for label in model.filling(self.graph, self.honest, start, event.shown[after:]):
                    self.add(place, label, dict.fromkeys(self.graph.edges[label].writes, model.HIDDEN))
            for variable, value in event.values:
                self.show(place, variable, value)
        self.ends.append([place, len(self.walk)])

    def show(self, place, variable, value):
        """If the last write of a variable is hidden, it has this value."""
        at = next(at for at in reversed(range(len(self.walk))) if variable in self.walk[at][1])
        if self.walk[at][1][variable] is model.HIDDEN:
            self.walk[at][1][variable] = value
            texts = self.steps[at][2]
            texts[-1:] = [[place, self.text(at)]] if texts[-1][0] == place else [texts[-1], [place, self.text(at)]]

    def line(self, name):
        """The whole walk as a line of a report."""
        return ' '.join([f'walk {name}:'] + [self.text(at) for at in range(len(self.walk))])


def collision_step(run):
    """The first step at which two different texts that were hashed have one digest, 0 for the graphs, or None."""
    texts = {}
    for place, notes in enumerate([run.first] + run.notes):
        for text in notes.hashed:
            if texts.setdefault(model.sha256(text), text) != text:
                return place
    return None


class Account:
    """All that a page of a run says."""

    def __init__(self, run, words, heading, causes):
        """Takes a run, the words of its steps, the schedule's heading, and what was wrong with each refused step, by its number."""
        self.run, self.words, self.heading, self.causes = run, words, heading, causes
        self.lines = model.report(run)
        count = len(run.lines)
        self.step_lines, self.end_lines = self.lines[:count], self.lines[count:]
        self.premises = self.premises_of()
        self.traces = self.traces_of()
        self.made = self.makers()
        self.people = self.people_of()

    def premises_of(self):
        """Each assumption with its line, and the step at which it breaks, or None."""
        broken, twice = model.forged(self.run), collision_step(self.run)
        if (twice is not None) != model.collision(self.run):
            raise Disagreement('it is not clear whether two texts have one digest')
        found = [{'line': self.end_lines[0], 'broken': broken[0] if broken else None, 'why': self.forged_text(broken) if broken else ''},
                 {'line': self.end_lines[1], 'broken': twice, 'why': 'two different texts that were hashed have one digest' if twice else ''}]
        for premise in found:
            if premise['line'].endswith(' holds') != (premise['broken'] is None):
                raise Disagreement(f'{premise["line"]} is not what was found')
        return found

    def forged_text(self, broken):
        """Which tag was found right that its maker didn't make."""
        place, pair = broken
        made = {one for notes in self.run.notes[:place - 1] for one in notes.made}
        text = next(text for found, text in self.run.notes[place - 1].found if found == pair and (found, text) not in made)
        who = ' and '.join(pair)
        if not text.startswith(b'sg-item-'):
            return f'the frame\'s tag is right under the key of {who}, who are honest, and neither of them made it'
        sid, role, label, time = text[9:41], text[41], int.from_bytes(text[43:45], 'big'), int.from_bytes(text[45:49], 'big')
        graph = next((event_graph for event_sid, event_graph in self.graphs_by_sid() if event_sid == sid), None)
        return (f'the tag of {self.run.label_word(graph, label)} at time {time} is right under the key of {who}, who are honest, '
                f'and {self.run.role_word(graph, role)} didn\'t make it')

    def graphs_by_sid(self):
        """Identifiers of sessions with their graphs."""
        found = [(model.sha256(model.text_of_session(declared.cast)), declared.graph) for declared in self.run.schedule.sessions.values()]
        return found + [(event.sid, self.run.graph_of(event.cast)) for event in self.run.events]

    def end_of_walks(self):
        """The step from which on no walk is promised, or None."""
        return min((premise['broken'] for premise in self.premises if premise['broken'] is not None), default=None)

    def traces_of(self):
        """The trace of each session with an event, by its name, up to where an assumption breaks."""
        found, end = {}, self.end_of_walks()
        for place, event in zip(self.run.event_steps, self.run.events):
            name, graph = self.run.session_word(event.sid), self.run.graph_of(event.cast)
            honest = {role for role, who in enumerate(event.cast.names) if who in self.run.schedule.honest}
            trace = found.setdefault(name, Trace(graph, honest))
            trace.cast = event.cast
            if end is None or place < end:
                trace.take(place, event)
        walks = [line for line in self.end_lines if line.startswith('walk ')]
        if end is None and sorted(trace.line(name) for name, trace in found.items()) != sorted(walks):
            raise Disagreement('a walk is not the report\'s')
        return found

    def makers(self):
        """Who made each recorded frame, and at which step. What is crafted in the name of an honest principal comes from the network."""
        found = []
        for place, (step, refused) in enumerate(zip(self.run.schedule.steps, self.run.refused), 1):
            if step[0] == 'craft':
                name = step[1].session.cast.names[step[1].sender]
                found.append((NETWORK if name in self.run.schedule.honest else name, place))
            elif step[0] == 'act' and not refused:
                found.append((step[1], place))
        return found

    def source(self, step):
        """From whom a delivery comes: the maker of its frame, or the network."""
        _, _, kind, what, change = step
        return self.made[what - 1][0] if kind == 'frame' and change is None and 1 <= what <= len(self.made) else NETWORK

    def people_of(self):
        """Those who have a line in the chart: the casts, whoever else takes a step, and the network if it sends."""
        found = [name for declared in self.run.schedule.sessions.values() for name in declared.cast.names]
        steps = self.run.schedule.steps
        found += [step[1] for step in steps if step[0] != 'craft'] + [name for name, _ in self.made if name == NETWORK]
        found += [name for name in map(self.source, (step for step in steps if step[0] == 'deliver')) if name == NETWORK]
        return list(dict.fromkeys(found))

    # Frames.

    def frame(self, data, number, change):
        """What a frame carries, in the words of its graph, or why its bytes are none."""
        name = f'f{number}' if number else 'bytes'
        told = {'name': name, 'size': len(data), 'change': ' '.join(str(word) for word in change) if change else ''}
        if number and number <= len(self.made):
            told['by'], told['at'] = self.made[number - 1]
            step = self.run.schedule.steps[told['at'] - 1]
            if step[0] == 'craft' and not change and step[1].know:
                told['know'] = [[self.variable(step[1].session.graph, opening.variable), model.spelled(opening.value)] for opening in step[1].know]
        try:
            frame = model.FrameReader(data).frame()
        except model.Refused as refusal:
            return {**told, 'fault': str(refusal)}
        declared = self.run.declared(frame.sid)
        graph = declared.graph if declared else None
        names = declared.cast.names if declared else ()
        if frame.join:
            graph = next((graph for graph in self.run.schedule.graphs if graph.digest() == frame.join.digest), graph)
            names = frame.join.names
            told['cast'] = [[self.run.role_word(graph, role), who] for role, who in enumerate(names)]
            told['nonce'] = frame.join.nonce.hex().lstrip('0') or '0'
        sources = self.sources(number) if number and not change else None
        for key, role in (('from', frame.sender), ('to', frame.receiver)):
            told[key] = self.run.role_word(graph, role) + (f' ({names[role]})' if role < len(names) else '')
        told['session'] = self.run.session_word(frame.sid)
        told['joins'] = frame.join is not None
        told['items'] = [[self.run.label_word(graph, item.label), self.run.role_word(graph, item.role), item.time,
                          [[self.variable(graph, variable), short(digest)] for variable, digest in sorted(item.delta.items())],
                          [[self.run.role_word(graph, role), short(tag), sources[0][place].get(role, '') if sources else '']
                           for role, tag in sorted(item.tags.items())]] for place, item in enumerate(frame.items)]
        told['openings'] = [[self.variable(graph, opening.variable), model.spelled(opening.value)] for opening in frame.openings]
        told['tag'] = [short(frame.tag), sources[1] if sources else '']
        return told

    def variable(self, graph, variable):
        """A variable's name, or its number if there is none."""
        return graph.variables[variable].name if graph and variable < len(graph.variables) else f'variable {variable}'

    def sources(self, number):
        """Where the tags of a crafted frame come from, as its craft says: of each item by role, and of the frame."""
        step = self.run.schedule.steps[self.made[number - 1][1] - 1]
        if step[0] != 'craft':
            return None
        graph = step[1].session.graph
        items = [{role: self.source_text(graph, source) for role, source in tags.items()} for _, _, _, tags in step[1].items]
        return items, self.source_text(graph, step[1].seal)

    def source_text(self, graph, source):
        """Where one tag of a craft comes from."""
        if source[0] == 'key':
            return f'made with the key of {" and ".join(sorted(source[1]))}'
        if source[0] == 'zero':
            return 'zeros'
        return f'copied from f{source[1]}' + ('' if source[0] == 'seal' else f', item {source[2]}, for {self.run.role_word(graph, source[3])}')

    # The data of a page.

    def session_of(self, step, place, frames):
        """The name of the session that a step is of, as far as it is known."""
        if step[0] == 'craft':
            return self.run.session_word(model.sha256(model.text_of_session(step[1].session.cast)))
        if step[0] != 'deliver':
            return self.run.session_word(model.sha256(model.text_of_session(step[2].cast)))
        told = frames[place] if place is not None else None
        return told.get('session') if told else None

    def data(self):
        """All of it, for the page's script."""
        frames, places, steps = [], {}, []
        for place, (step, line, (checks, _)) in enumerate(zip(self.run.schedule.steps, self.step_lines, self.run.steps), 1):
            number = self.frame_place(step, line, frames, places, place)
            refused = next((at for at, row in enumerate(checks.rows) if not row.fits()), -1) if checks else -1
            told = {'kind': step[0], 'who': step[1] if step[0] != 'craft' else self.made_by(line)}
            session = self.session_of(step, number, frames)
            for key, value in (('session', session), ('frame', number), ('refused', refused), ('cause', self.causes.get(place))):
                if value is not None and value != -1:
                    told[key] = value
            if checks:
                told['checks'] = [[row.name, [[text, 1] if fit else [text, 0] for text, fit in row.values]] for row in checks.rows]
            if step[0] == 'deliver':
                told['source'] = self.source(step)
            if step[0] == 'craft':
                told['name'] = step[1].session.cast.names[step[1].sender]
            steps.append(told)
        return {
            'kind': 'run', 'lines': self.step_lines, 'end': self.end_lines, 'steps': steps, 'frames': frames, 'checks': CHECKS,
            'premises': self.premises, 'people': self.people, 'honest': [name for name in self.people if name in self.run.schedule.honest],
            'held': self.held(), 'sessions': self.sessions(),
        }

    def made_by(self, line):
        """Who made the frame of a craft's line."""
        return self.made[int(line.rsplit('f', 1)[1]) - 1][0]

    def frame_place(self, step, line, frames, places, place):
        """The place in `frames` of the frame that a step makes or delivers; a frame that is delivered as it was made stands there once."""
        if step[0] == 'deliver':
            _, _, kind, what, change = step
            if kind == 'frame' and not 1 <= what <= sum(at < place for _, at in self.made):
                return None
            key = (what, change)
            data = what if kind == 'bytes' else model.changed(self.run.frames[what - 1], change)
            number = what if kind == 'frame' else 0
        else:
            number = next((number for number, (_, at) in enumerate(self.made, 1) if at == place), None) if step[0] in ('craft', 'act') else None
            if number is None:
                return None
            key, data, change = (number, None), self.run.frames[number - 1], None
        if key not in places:
            places[key] = len(frames)
            frames.append(self.frame(data, number, change))
        return places[key]

    def held(self):
        """What each honest principal keeps of each session, from a step on."""
        found = []
        for (who, sid), states in self.run.kept.items():
            session = self.run.sessions[who, sid]
            found.append({'who': who, 'session': self.run.session_word(sid), 'role': session.graph.roles[session.role],
                          'states': [[place, state] for place, state in states]})
        return found

    def sessions(self):
        """Each session of the schedule or with an event: its graph, cast and walk."""
        graphs = self.run.schedule.graphs
        found = {}
        for declared in self.run.schedule.sessions.values():
            name = self.run.session_word(model.sha256(model.text_of_session(declared.cast)))
            found.setdefault(name, (declared.graph, declared.cast))
        for name, trace in self.traces.items():
            found.setdefault(name, (trace.graph, trace.cast))
        told = []
        for name, (graph, cast) in found.items():
            trace = self.traces.get(name)
            told.append({'name': name, 'graph': next(at for at, one in enumerate(graphs) if one is graph), 'version': cast.version,
                         'cast': [[graph.roles[role], who, who in self.run.schedule.honest] for role, who in enumerate(cast.names)],
                         'walk': trace.steps if trace else [], 'ends': trace.ends if trace else []})
        return told

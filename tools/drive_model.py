#!/usr/bin/env python3
"""A generator of `drive`, written from the formats alone: it shares nothing with the program, and knows neither frames nor tags.

  drive_model.py SEED SESSIONS GRAPH              the summary
  drive_model.py --schedule SEED SESSIONS GRAPH   the steps as a schedule that `replay` reads
  drive_model.py --replay PROGRAM SEED SESSIONS GRAPH
      gives the schedule to PROGRAM `replay`, and compares each line's outcome, the assumptions and the walks with the model's

In a generated run every principal is honest and frames come whole, so whether a delivery is accepted follows from the places and times of
the roles alone: a joining frame of a role that hasn't joined, or another frame of a live role that waits, with a time above its own last
one. It needs python3 alone. The exit status is 0, or 1 if the program's lines are others or GRAPH can't be read, or 2 if the arguments are wrong."""
import os
import re
import subprocess
import sys
import tempfile

TOKEN = re.compile(r'#[^\n]*|[A-Za-z][A-Za-z0-9_]*|->|[:;]')


class Graph:
    def __init__(self, text):
        self.roles, self.vars, self.nodes, self.edges = [], [], [], []
        words = [w for w in TOKEN.findall(text) if not w.startswith('#')]
        at = 0
        while at < len(words):
            end = words.index(';', at)
            part, at = words[at:end], end + 1
            if part[0] == 'graph':
                self.name = part[1]
            elif part[0] == 'role':
                self.roles.append(part[1])
            elif part[0] == 'var':
                self.vars.append((part[1], part[3]))
            elif part[0] == 'node':
                self.nodes.append((part[1], self.roles.index(part[3])))
            else:
                names = [n for n, _ in self.nodes]
                rest, sets = part[6:], {'writes': [], 'reads': []}
                for word in rest:
                    if word in sets:
                        into = sets[word]
                    else:
                        into.append([v for v, _ in self.vars].index(word))
                self.edges.append((part[1], names.index(part[3]), names.index(part[5]), sorted(sets['writes'])))
        self.leaving = [[e for e, edge in enumerate(self.edges) if edge[1] == n] for n in range(len(self.nodes))]

    def reaches(self, node, role):
        seen, todo = set(), [node]
        while todo:
            n = todo.pop()
            if n in seen:
                continue
            seen.add(n)
            if self.nodes[n][1] == role:
                return True
            todo += [self.edges[e][2] for e in self.leaving[n]]
        return False


class Frame:
    def __init__(self, session, label, time, joins):
        self.session, self.label, self.time, self.joins = session, label, time, joins


class Drive:
    def __init__(self, seed, sessions, graph):
        self.seed, self.used, self.graph = seed, 0, graph
        self.steps = []      # the line of a schedule, and what must come of it
        self.frames = []
        self.state = {}      # (session, role): live, waits, own last time
        self.lost = 0
        self.ended = set()
        self.sessions = sessions
        first = 1
        while first <= sessions:
            last = min(first + 15, sessions)
            self.group(range(first, last + 1))
            first = last + 1

    def draw(self):
        d = (((self.seed + self.used) * 2654435761) % 4294967296) // 65536
        self.used += 1
        return d

    def group(self, numbers):
        pending = []         # frame number, count
        for s in numbers:
            role = self.graph.nodes[0][1]
            self.state[s, role] = [True, False, 0]
            self.steps.append((f'start p{role} s{s}', 'started'))
            self.play(pending, s, 0, 0)
        while pending:
            place = self.draw() % len(pending)
            e = self.draw() % 16
            number, count = pending[place]
            if count != 3 and e in (0, 1):
                pending.append((pending.pop(place)[0], count + 1))
            elif count != 3 and e == 15:
                pending.pop(place)
                self.lost += 1
            else:
                pending.pop(place)
                if count != 3 and e in (2, 3):
                    pending.append((number, count + 1))
                self.deliver(pending, number)

    def play(self, pending, s, node, time):
        role = self.graph.nodes[node][1]
        labels = self.graph.leaving[node]
        label = labels[self.draw() % len(labels)]
        name, _, target, writes = self.graph.edges[label]
        values = ''
        for v in writes:
            d = self.draw()
            values += f' {self.graph.vars[v][0]}=' + (f'{d}' if self.graph.vars[v][1] == 'int' else f'"{d}"')
        self.steps.append((f'act p{role} s{s} {name}{values}', f'sent {name} time {time + 1}'))
        to = self.graph.nodes[target][1]
        self.frames.append(Frame(s, label, time + 1, (s, to) not in self.state))
        live = self.graph.reaches(target, role)
        self.state[s, role] = [live, True, time + 1]
        if not self.graph.leaving[target]:
            self.ended.add(s)
        pending.append((len(self.frames), 0))

    def deliver(self, pending, number):
        frame = self.frames[number - 1]
        s, target = frame.session, self.graph.edges[frame.label][2]
        role = self.graph.nodes[target][1]
        line = f'deliver p{role} f{number}'
        have = self.state.get((s, role))
        if frame.joins:
            right = have is None
        else:
            right = have is not None and have[0] and have[1] and frame.time > have[2]
        if not right:
            self.steps.append((line, 'refused'))
            return
        self.steps.append((line, f'received {self.graph.edges[frame.label][0]} time {frame.time}'))
        own = 0 if have is None else have[2]
        if not self.graph.leaving[target]:
            self.state[s, role] = [False, False, own]
        elif frame.time >= 16:
            self.steps.append((f'abandon p{role} s{s}', 'abandoned'))
            self.state[s, role] = [False, False, own]
        else:
            self.play(pending, s, target, frame.time)

    def count(self, word):
        return sum(1 for _, outcome in self.steps if outcome.split()[0] == word)

    def summary(self):
        lines = [('sessions', self.sessions)]
        lines += [(w, self.count(w)) for w in ('sent', 'received', 'refused')]
        lines += [('lost', self.lost), ('abandoned', self.count('abandoned')), ('complete', len(self.ended))]
        text = ''.join(f'{word} {n}\n' for word, n in lines)
        return text + 'premise unforged holds\npremise collision-free holds\n' + f'walks {self.sessions}\n'

    def schedule(self, text):
        n = len(self.graph.roles)
        lines = ['graph {', text.rstrip('\n'), '}']
        lines += [f'honest p{i}' for i in range(n)]
        lines += [f'key p{i} p{j} {i:02x}{j:02x}' + 60 * '0' for i in range(n) for j in range(i + 1, n)]
        cast = ','.join(f'p{i}' for i in range(n))
        lines += [f'session s{s} {self.graph.name} {s} {cast}' for s in range(1, self.sessions + 1)]
        lines += [step for step, _ in self.steps]
        return '\n'.join(lines) + '\n'


def compare(program, drive, text):
    with tempfile.NamedTemporaryFile('w', suffix='.schedule') as f:
        f.write(drive.schedule(text))
        f.flush()
        done = subprocess.run([program, 'replay', f.name], capture_output=True, text=True)
    if done.returncode != 0:
        return f'status {done.returncode}: {done.stderr}'
    lines = done.stdout.splitlines()
    steps, rest = lines[:len(drive.steps)], lines[len(drive.steps):]
    for k, ((step, outcome), line) in enumerate(zip(drive.steps, steps), 1):
        if f' {outcome}' not in line + ' ' or not line.startswith(f'{k} '):
            return f'step {k}, {step}: {outcome} against {line}'
    if rest[:2] != ['premise unforged holds', 'premise collision-free holds']:
        return f'premises: {rest[:2]}'
    if len(rest) - 2 != drive.sessions or not all(r.startswith('walk s') for r in rest[2:]):
        return f'{len(rest) - 2} walks'
    return None


USAGE = 'usage: tools/drive_model.py [--schedule | --replay PROGRAM] SEED SESSIONS GRAPH'


def main():
    words = sys.argv[1:]
    mode, program = None, None
    first = {'--schedule': 1, '--replay': 2}.get(words[0], 0) if words else 0
    if len(words) != first + 3 or not all(re.fullmatch('[0-9]+', word) for word in words[first:first + 2]):
        print(USAGE, file=sys.stderr)
        return 2
    if not os.path.isfile(words[-1]):
        print(f'drive_model.py: {words[-1]} is no file', file=sys.stderr)
        return 1
    if words[0] == '--schedule':
        mode, words = 'schedule', words[1:]
    elif words[0] == '--replay':
        mode, program, words = 'replay', words[1], words[2:]
    with open(words[2]) as f:
        text = f.read()
    drive = Drive(int(words[0]), int(words[1]), Graph(text))
    if mode == 'schedule':
        sys.stdout.write(drive.schedule(text))
    elif mode == 'replay':
        fault = compare(program, drive, text)
        print(fault or f'{len(drive.steps)} steps agree')
        return 1 if fault else 0
    else:
        sys.stdout.write(drive.summary())
    return 0


if __name__ == '__main__':
    sys.exit(main())

"""Draws a graph and a run as SVG. The colours are those of page.css, by classes, so a picture is right in light and in dark.

A graph is drawn as `layers` places it: an edge back is dotted and its label has an arrow that turns, and the start has a double outline. A run
is a sequence chart: a line down for each principal, a row for each line of the report. A delivery is an arrow from whoever made the frame, as
tools/draw has it: with a cross if it was refused, dashed if a compromised principal made the frame, and from the network if its bytes are
no recorded frame's.
"""
import html

from looking import account, layers

ROW, BREAK, GUTTER, HEAD, COLUMN = 45, 26, 42, 58, 462
MOST = 36


def cut(text, most=MOST):
    """A text that isn't longer than so many letters."""
    return text if len(text) <= most else text[:most - 1] + '…'


def escaped(text):
    """A text within an element or an attribute."""
    return html.escape(text, quote=True)


def mono(text):
    """How wide a text is in letters of one width, at eleven pixels."""
    return int(len(text) * 6.7) + 2


# Graphs.

def variables_text(graph, edge):
    """What an edge writes and reads."""
    lists = (('writes', edge.writes), ('reads', edge.reads))
    return ' '.join(f'{word} {" ".join(graph.names(variables))}' for word, variables in lists if variables)


def sentence(graph):
    """A graph in words, for whoever doesn't see it."""
    edges = [f'{edge.label} from {graph.nodes[edge.source].name} to {graph.nodes[edge.target].name}'
             + ''.join(f', {part}' for part in [variables_text(graph, edge)] if part) for edge in graph.edges]
    nodes = [f'{node.name} of {graph.roles[node.role]}' for node in graph.nodes]
    return f'Nodes, the start first: {", ".join(nodes)}. Edges: {"; ".join(edges) or "none"}.'


def picture(graph, number, plays=()):
    """The SVG of a graph. `plays` has pairs of a role's number and a principal that may play it, so that the nodes are wide enough."""
    role_texts = [max([role] + [f'{role}: {who}' for one, who in plays if one == place], key=len) for place, role in enumerate(graph.roles)]
    widths = [max(mono(cut(node.name, 24)), mono(role_texts[node.role]), 40) + 22 for node in graph.nodes]
    lines = [[cut(edge.label, 32)] + [cut(text, 32) for text in [variables_text(graph, edge)] if text] for edge in graph.edges]
    layout = layers.Layout(graph, widths, [max(mono(text) for text in texts) + 26 for texts in lines])
    out = [f'<svg class="graph" id="graph{number}" role="img" aria-labelledby="gt{number} gd{number}" width="{layout.width}" '
           f'height="{layout.height}" viewBox="0 0 {layout.width} {layout.height}"><title id="gt{number}">The graph {graph.name}</title>'
           f'<desc id="gd{number}">{escaped(sentence(graph))}</desc>']
    out += [edge_picture(graph, layout, label, lines[label]) for label in range(len(graph.edges))]
    out += [node_picture(graph, layout, node) for node in range(len(graph.nodes))]
    return '\n'.join(out + ['</svg>'])


def edge_picture(graph, layout, label, texts):
    """An edge with its label."""
    edge, back = graph.edges[label], label in layout.back or label in layout.loops
    x, y = layout.label_place(label)
    width = max(mono(text) for text in texts) + 12
    height = 14 * len(texts) + 2
    shown = ('↺ ' if back else '') + texts[0]
    out = (f'<g class="edge{" back" if back else ""}" data-label="{edge.label}"><path d="{layout.path(label)}"/>'
           f'<polygon points="{layout.tip(label)}"/>'
           f'<rect x="{x - width // 2}" y="{y - height // 2 - 2}" width="{width}" height="{height + 5}" rx="5"/>'
           f'<text class="label" x="{x}" y="{y - height // 2 + 12}">{escaped(shown)}</text>')
    if len(texts) > 1:
        out += f'<text class="with" x="{x}" y="{y + height // 2 - 4}">{escaped(texts[1])}</text>'
    return out + f'<text class="turns" x="{x + mono(shown) // 2 + 4}" y="{y - height // 2 + 12}"></text></g>'


def node_picture(graph, layout, node):
    """A node with its role."""
    spot, height = layout.nodes[node], layers.NODE_HEIGHT
    left, top, width = int(spot.x - spot.width / 2), spot.y - height // 2, int(spot.width)
    role = graph.nodes[node].role
    inner = f'<rect class="inner" x="{left + 3}" y="{top + 3}" width="{width - 6}" height="{height - 6}" rx="7"/>' if node == 0 else ''
    return (f'<g class="node r{role % 8}{" twice" if role >= 8 else ""}" data-node="{graph.nodes[node].name}" data-role="{graph.roles[role]}">'
            f'<rect class="ring" x="{left - 4}" y="{top - 4}" width="{width + 8}" height="{height + 8}" rx="13"/>'
            f'<rect class="box" x="{left}" y="{top}" width="{width}" height="{height}" rx="9"/>{inner}'
            f'<text class="name" x="{int(spot.x)}" y="{spot.y - 3}">{escaped(cut(graph.nodes[node].name, 24))}</text>'
            f'<text class="role" x="{int(spot.x)}" y="{spot.y + 13}">{escaped(graph.roles[role])}</text></g>')


# Runs.

class Chart:
    """The sequence chart of an account: `heads` with the principals, and `rows` below."""

    def __init__(self, told, data):
        self.people, self.honest, self.data = data['people'], set(data['honest']), data
        self.lines = told.step_lines
        self.breaks = sorted(it['broken'] for it in data['premises'] if it['broken'])
        texts = [self.texts(place) for place in range(len(data['steps']))]
        # (a column of the page has room for so much; if there are more people, it is scrolled to who is looked at)
        self.gap = max(130, min(262, COLUMN // max(len(self.people), 1)))
        self.left = GUTTER + self.gap // 2
        self.width = GUTTER + self.gap * len(self.people)
        self.height = max(self.top(len(texts)), ROW)
        rows = [self.row(place, pair) for place, pair in enumerate(texts)]
        self.heads = self.picture('heads', HEAD, [self.head(place) for place in range(len(self.people))])
        downs = [f'<line class="down {self.kind(who)}" x1="{self.x(who)}" x2="{self.x(who)}" y1="0" y2="{self.height}"/>' for who in self.people]
        self.rows = self.picture('rows', self.height, downs + rows + [self.broken(it) for it in data['premises'] if it['broken']])

    def top(self, place):
        """How far down a row begins, the first one being row 0: below a step at which an assumption breaks is room to say so."""
        return ROW * place + BREAK * sum(step <= place for step in self.breaks)

    def broken(self, premise):
        """Where an assumption breaks."""
        y = self.top(premise['broken'] - 1) + ROW
        return (f'<g class="breaks"><rect x="0" y="{y}" width="{self.width}" height="{BREAK}"/>'
                f'<line x1="0" x2="{self.width}" y1="{y + 1}" y2="{y + 1}"/><text x="8" y="{y + 17}">⚡ {escaped(premise["line"])}</text></g>')

    def picture(self, name, height, parts):
        """An SVG of the chart's width."""
        words = {'heads': f'Principals: {", ".join(f"{who}, {self.kind(who)}" for who in self.people)}.',
                 'rows': f'Sequence chart of {len(self.lines)} steps; the report below has them as text.'}
        return '\n'.join([f'<svg id="{name}" role="img" aria-label="{escaped(words[name])}" width="{self.width}" height="{height}" '
                          f'viewBox="0 0 {self.width} {height}">'] + parts + ['</svg>'])

    def kind(self, name):
        """What somebody is."""
        return 'network' if name == account.NETWORK else 'honest' if name in self.honest else 'compromised'

    def x(self, name):
        """Where somebody's line stands."""
        return self.left + self.gap * self.people.index(name)

    def head(self, place):
        """The head of a line."""
        name = self.people[place]
        x, width = self.x(name), min(max(mono(name), mono('compromised')) + 30, self.gap - 8)
        return (f'<g class="head {self.kind(name)}"><rect x="{x - width // 2}" y="6" width="{width}" height="44" rx="9"/>'
                f'<text class="name" x="{x}" y="25">{escaped(cut(name, 24))}</text>'
                f'<text class="kind" x="{x}" y="41">{"nobody" if name == account.NETWORK else self.kind(name)}</text></g>')

    def texts(self, place):
        """The two lines of text of a row."""
        step, words = self.data['steps'][place], self.lines[place].split(' ')
        frame = self.data['frames'][step['frame']] if 'frame' in step else None
        if step['kind'] == 'craft':
            shown = ', '.join(f'{label} {time}' for label, _, time, _, _ in frame.get('items', []))
            return cut(f'crafted {words[2]}') + (f' as {step["name"]}' if step['name'] != step['who'] else ''), cut(shown)
        name = f'{frame["name"]} {frame["change"]}'.rstrip() if frame else 'a frame'
        if 'refused' in step:
            return cut(f'{name if step["kind"] == "deliver" else step["kind"]} refused: {words[3]}'), cut(' '.join(words[4:]))
        if step['kind'] == 'deliver':
            return cut(f'{name} {words[4]} time {words[6]}'), cut(' '.join(words[7:]))
        if step['kind'] == 'act':
            at = words.index('as')
            return cut(f'sent {words[4]} {words[6]}'), cut(' '.join(words[at + 1:]))
        return cut(' '.join(words[3:])), cut(words[2])

    def row(self, place, texts):
        """A row of the chart."""
        step, y = self.data['steps'][place], self.top(place)
        refused = 'refused' in step
        inside = self.arrow(step, y, texts, refused) if step['kind'] == 'deliver' else self.note(step, y, texts)
        return (f'<g class="row {step["kind"]}{" refused" if refused else ""}" data-step="{place + 1}"><title>{escaped(self.lines[place])}</title>'
                f'<rect class="hit" y="{y}" width="{self.width}" height="{ROW}"/>'
                f'<text class="number" x="{GUTTER - 9}" y="{y + 27}">{place + 1}</text>{inside}</g>')

    def both(self, x, y, texts, place=''):
        """Two lines of text about a middle, or one."""
        first = f'<text class="first{place}" x="{x}" y="{y + (18 if texts[1] else 26)}">{escaped(texts[0])}</text>'
        return first + (f'<text class="second{place}" x="{x}" y="{y + 33}">{escaped(texts[1])}</text>' if texts[1] else '')

    def note(self, step, y, texts):
        """A box on somebody's line."""
        texts = [cut(text, (self.gap - 18) // 7) for text in texts]
        x, width = self.x(step['who']), max(mono(text) for text in texts) + 14
        return (f'<rect class="note {self.kind(step["who"])}" x="{x - width // 2}" y="{y + 3}" width="{width}" height="{ROW - 6}" rx="7"/>'
                + self.both(x, y, texts))

    def arrow(self, step, y, texts, refused):
        """An arrow to somebody's line."""
        source, target, kind = self.x(step['source']), self.x(step['who']), self.kind(step['source'])
        way = 1 if target > source else -1
        if source == target:
            end, line = target, f'M{source} {y + 37}h-{self.gap // 3}v-14h{self.gap // 3 - 9}'
            tip_y, way, middle, text_y = y + 23, 1, source, y - 9
        else:
            end, line = target, f'M{source} {y + 37}H{target - way * (14 if refused else 9)}'
            texts = [cut(text, (abs(target - source) + 30) // 7) for text in texts]
            tip_y, middle, text_y = y + 37, (source + target) // 2, y - 2
        tip = (f'<path class="cross" d="M{end - way * 16} {tip_y - 7}l14 14m0 -14l-14 14"/>' if refused
               else f'<polygon class="{kind}" points="{end},{tip_y} {end - way * 9},{tip_y - 5} {end - way * 9},{tip_y + 5}"/>')
        return f'<path class="way {kind}" d="{line}"/>{tip}' + self.both(middle, text_y, texts, ' loose')

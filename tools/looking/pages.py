"""Puts a page together: one HTML file with its pictures, its data, its style and its script, which asks for nothing from anywhere."""
import html
import json
import pathlib
import re

import model
from looking import account, drawing

HERE = pathlib.Path(__file__).resolve().parent

# The checks of each kind of step, in their order.
TO_JOIN = ['unknown-graph', 'bad-cast', 'unknown-peer', 'joined', 'cache-full', 'sessions-full']
OF_FRAMES = ['bad-frame-tag', 'no-such-view', 'bad-time', 'bad-evidence', 'bad-opening']
ORDERS = {
    'start': TO_JOIN,
    'act': ['unknown-session', 'not-your-turn', 'no-such-label', 'bad-values', 'time-spent'],
    'abandon': ['unknown-session'],
    'join': ['malformed'] + TO_JOIN[:3] + ['bad-session'] + TO_JOIN[3:] + OF_FRAMES,
    'go on': ['malformed', 'unknown-session', 'not-waiting'] + OF_FRAMES,
}
POLICY = "default-src 'none'; style-src 'unsafe-inline'; script-src 'unsafe-inline'; img-src data:"


class NotThis(Exception):
    """A text that isn't what it should be, with what is wrong."""


def escaped(text):
    """A text within an element or an attribute."""
    return html.escape(text, quote=True)


def embedded(data):
    """Data within a script's element."""
    return json.dumps(data, separators=(',', ':'), ensure_ascii=True).replace('<', '\\u003c')


def page(kind, title, header, body, data, texts):
    """The whole page."""
    style, script = (HERE / 'page.css').read_text(encoding='utf-8'), (HERE / 'page.js').read_text(encoding='utf-8')
    shown = ''.join(f'<details><summary>{escaped(name)}</summary><pre>{escaped(text)}</pre></details>\n' for name, text in texts)
    return f'''<!DOCTYPE html>
<html lang="en">
<head>
<meta charset="utf-8">
<meta name="viewport" content="width=device-width, initial-scale=1">
<meta http-equiv="Content-Security-Policy" content="{POLICY}">
<link rel="icon" href="data:,">
<title>{escaped(title)}</title>
<style>
{style}</style>
</head>
<body class="{kind}">
<div class="screen">
{header}
{body}
</div>
<div class="texts">
{shown}</div>
<script type="application/json" id="data">{embedded(data)}</script>
<script>
{script}</script>
</body>
</html>
'''


def bar(last, marks='', more=''):
    """The buttons, the slide, and the line of the moment."""
    return f'''<div class="bar">
<div class="keys"><button id="first" title="Home" aria-label="to the beginning">|◀</button>
<button id="back" title="arrow left" aria-label="one step back">◀</button>
<button id="next" title="arrow right" aria-label="one step on">▶</button>
<button id="end" title="End" aria-label="to the end">▶|</button>{more}</div>
<div class="slide"><input type="range" id="slide" min="0" max="{last}" value="0" aria-label="step">{marks}</div>
<span id="where"></span>
<p id="line" aria-live="polite"></p>
</div>'''


def legend(**lines):
    """What kinds of lines say, by the names of their classes."""
    ways = {'x': 'M12 1l10 10m0 -10l-10 10'}
    told = ''.join(f'<span><svg><path class="{kind}" d="{ways.get(kind, "M0 6h34")}"/></svg> {words}</span>' for kind, words in lines.items())
    return f'<div class="legend" aria-hidden="true">{told}</div>'


def shape_of(graph):
    """What the script needs of a graph."""
    return {'name': graph.name, 'start': graph.nodes[0].name,
            'edges': {edge.label: [graph.nodes[edge.source].name, graph.nodes[edge.target].name] for edge in graph.edges}}


# A run.

def run_page(told, name, texts):
    """The page of an account, under a name."""
    data, graphs = told.data(), told.run.schedule.graphs
    chart = drawing.Chart(told, data)
    data.update(row=drawing.ROW, gap=drawing.BREAK, places={who: chart.x(who) for who in chart.people}, orders=ORDERS,
                graphs=[shape_of(graph) for graph in graphs])
    sessions = told.run.schedule.sessions.values()
    plays = [{(role, who) for session in sessions if session.graph is graph for role, who in enumerate(session.cast.names)} for graph in graphs]
    pictures = '\n'.join(drawing.picture(graph, number, sorted(plays[number])) for number, graph in enumerate(graphs))
    title = f'{name}: a run of {len(data["lines"])} steps'
    return page('run', title, run_header(told, data, name), run_body(data, chart, pictures), data, texts)


def run_header(told, data, name):
    """What stands at the top: the comment of the schedule, who is who, and the assumptions."""
    refused, crafted = sum('refused' in step for step in data['steps']), sum(step['kind'] == 'craft' for step in data['steps'])
    counts = [f'{len(data["lines"])} steps'] + [f'{count} {word}' for count, word in ((crafted, 'crafted'), (refused, 'refused')) if count]
    plays = {}
    for session in data['sessions']:
        for role, who, _ in session['cast']:
            if role not in plays.setdefault(who, []):
                plays[who].append(role)
    people = ''
    for who in [who for who in data['people'] if who in plays or who in data['honest']][:12]:
        honest, roles = who in data['honest'], f' as {" ".join(plays[who][:3])}' if who in plays else ''
        people += f'<li class="chip {"honest" if honest else "compromised"}">{escaped(who + roles)}{"" if honest else ", compromised"}</li>'
    premises = ''
    for it in data['premises']:
        kind, mark = ('holds', '✓') if it['broken'] is None else ('broken', '⚡')
        premises += f'<li class="chip {kind}">{mark} {escaped(it["line"])}</li>'
    return (f'<header><h1>{escaped(name)}<small>{escaped(", ".join(counts))}</small></h1><p class="heading">{escaped(told.heading)}</p>'
            f'<div class="facts"><ul aria-label="principals">{people}</ul><ul aria-label="assumptions">{premises}</ul></div></header>')


def run_body(data, chart, pictures):
    """The bar, and the four parts below it."""
    last = len(data['lines']) + 1
    marks = [(place, '') for place, step in enumerate(data['steps'], 1) if 'refused' in step]
    marks += [(it['broken'], ' class="broken"') for it in data['premises'] if it['broken']]
    thin = ' style="stroke-width:1"' if len(marks) > 40 else ''
    lines = ''.join(f'<line{kind}{thin} x1="{place}" x2="{place}" y1="0" y2="7"/>' for place, kind in marks)
    ticks = f'<svg viewBox="0 0 {last} 7" preserveAspectRatio="none" aria-hidden="true">{lines}</svg>' if marks else ''
    more = '\n<button id="refusal" title="key r">next refusal</button>' if any('refused' in step for step in data['steps']) else ''
    names = ''.join(f'<option>{escaped(session["name"])}</option>' for session in data['sessions'])
    choice = f'<label class="quiet">session <select id="session"><option value="">of the step</option>{names}</select></label>'
    choice = choice if len(data['sessions']) > 1 else ''
    return f'''{bar(last, ticks, more)}
<main>
<section id="chart" aria-label="the run"><h2>The run <span>choose a step, or go by the arrow keys, Home and End</span></h2>
<div class="scroll chart" tabindex="-1">{chart.heads}
<div id="body">{chart.rows}<div id="later"></div><div id="band"></div><div id="since"></div></div></div>
{legend(h="honest frame", c="crafted frame", x="refused")}</section>
<section id="step" aria-label="this step"><h2>This step</h2><div class="scroll"><p id="told"></p><div id="detail"></div></div></section>
<section id="shape" aria-label="the graph and the walk so far"><h2>The walk so far <span id="of"></span></h2>
<div class="top">{choice}<p class="quiet" id="walked"></p><ol class="walk" id="walk"></ol></div>
<div class="scroll"><div class="picture">{pictures}</div></div>
{legend(h="honest step", c="filled in", b="↺ edge back")}</section>
<section id="holds" aria-label="who holds what"><h2>Who holds what <span id="held-of"></span></h2>
<div class="scroll"><div class="cards" id="cards"></div></div></section>
</main>'''


# A graph.

def claims_of(text, graph):
    """The claims that lines tell of, each with the walk that breaks it."""
    found, labels = [], {edge.label: edge for edge in graph.edges}
    for number, line in enumerate(text.splitlines(), 1):
        held = re.fullmatch(r'claim ([A-Za-z]\w*) (?:(holds)|fails: (\w+(?: \w+)*))', line, re.A)
        if held is None:
            raise NotThis(f'line {number} is no answer of a claim')
        walk = held[3].split(' ') if held[3] else []
        place = 0
        for label in walk:
            if label not in labels or labels[label].source != place:
                raise NotThis(f'line {number}: no walk of the graph from its start goes on by {label} there')
            place = labels[label].target
        if held[1] in [claim['name'].split()[0] for claim in found]:
            raise NotThis(f'line {number}: the claim {held[1]} stands there twice')
        found.append({'name': f'{held[1]} {"holds" if held[2] else "fails"}', 'line': line, 'fails': held[2] is None,
                      'walks': [walk] if walk else [], 'from': graph.nodes[0].name})
    return found


def verdict_of(graph):
    """What a check says of a graph, whether it refuses it, and the walks that the refusal names."""
    try:
        model.check_graph(graph)
        return model.check_text(graph).rstrip('\n'), False, []
    except model.Refused as refusal:
        line = f'graph refused: {refusal}'
    blinding = re.fullmatch(r'graph refused: (blinding) at (\w+) for .*: ([\w ]+) / ([\w ]+)', line)
    read = re.fullmatch(r'graph refused: (bad read) \w+ \w+ on ([\w ]+)', line)
    walks = [part.split() for part in (blinding[3], blinding[4])] if blinding else [read[2].split()] if read else []
    start = blinding[2] if blinding else graph.nodes[0].name
    return line, True, [{'name': f'refused: {(blinding or read)[1]}', 'line': line, 'fails': True, 'walks': walks, 'from': start}] if walks else []


def graph_page(graph, claims, texts):
    """The page of a graph, with what its check says, and with claims."""
    verdict, refused, found = verdict_of(graph)
    claims = found + claims
    data = {'kind': 'graph', 'graphs': [shape_of(graph)], 'claims': claims, 'verdict': verdict.split('\n')[0], 'refused': refused}
    failed = sum(claim['fails'] for claim in claims[len(found):])
    counts = f'{len(graph.roles)} roles, {len(graph.nodes)} nodes, {len(graph.edges)} edges'
    answers = [f'<li class="chip {"refused" if refused else "holds"}">{"✗ refused" if refused else "✓ accepted"}</li>']
    if len(claims) > len(found):
        answers.append(f'<li class="chip {"refused" if failed else "holds"}">{len(claims) - len(found)} claims, {failed} that fail</li>')
    header = (f'<header><h1>{escaped(graph.name)}<small>{counts}</small></h1><p class="heading">{escaped(verdict.replace(chr(10), ", "))}</p>'
              f'<div class="facts"><ul aria-label="verdict">{"".join(answers)}</ul></div></header>')
    return page('graph', f'{graph.name}: a graph', header, graph_body(graph, claims), data, texts)


def graph_body(graph, claims):
    """The picture, the claims, and tables of what the graph has."""
    buttons = ''.join(f'<button class="{"fails" if claim["fails"] else "holds"}" aria-pressed="false"><i>{"✗" if claim["fails"] else "✓"}</i>'
                      f'<span>{escaped(claim["name"])}</span>'
                      f'<small>{escaped(" / ".join(" ".join(walk) for walk in claim["walks"]))}</small></button>' for claim in claims)
    rows = ''
    for variable in graph.variables:
        rows += f'<tr><td>{variable.name}</td><td>{variable.kind}</td><td>{", ".join(graph.roles[role] for role in variable.writers)}</td></tr>'
    variables = f'<h3>Variables</h3><table><tr><th>name</th><th>kind</th><th>written by</th></tr>{rows}</table>' if rows else ''
    turns = ''.join(f'<tr><td>{role}</td><td>{escaped(", ".join(node.name for node in graph.nodes if node.role == place))}</td></tr>'
                    for place, role in enumerate(graph.roles))
    return f'''{bar(0)}
<main>
<section id="shape" aria-label="the graph"><h2>The graph <span>a double outline is the start</span></h2>
<div class="scroll"><div class="picture">{drawing.picture(graph, 0)}</div></div>
{legend(h="walk", s="the other walk", b="↺ edge back")}</section>
<section id="claims" aria-label="walks"><h2>Walks <span>go by the arrow keys, Home and End</span></h2>
<div class="scroll"><div class="claims">{buttons or '<p class="quiet">No claims were given.</p>'}</div>
<p class="quiet" id="walked"></p><ol class="walk" id="walk"></ol>
<h3>Roles</h3><table><tr><th>role</th><th>acts at</th></tr>{turns}</table>{variables}</div></section>
</main>'''

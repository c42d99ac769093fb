'use strict';
// Moves a cursor through a run, or through a walk of a graph. Everything it says stands in the page's data; texts get in as texts, never as markup.
const data = JSON.parse(document.getElementById('data').textContent);
const at = name => document.getElementById(name);

function make(name, attributes, ...inside) {
  const made = document.createElement(name);
  for (const [key, value] of Object.entries(attributes || {})) {
    if (value !== undefined && value !== false) made.setAttribute(key, value === true ? '' : value);
  }
  made.append(...inside.flat(Infinity).filter(one => one !== null && one !== undefined));
  return made;
}

function fill(name, ...inside) {
  at(name).replaceChildren(...inside.flat(Infinity).filter(one => one !== null && one !== undefined));
}

// The last of some pairs that begin with a number whose number isn't above `most`.
function latest(pairs, most) {
  let low = 0, high = pairs.length;
  while (low < high) {
    const middle = (low + high) >> 1;
    if (pairs[middle][0] <= most) low = middle + 1; else high = middle;
  }
  return low ? pairs[low - 1] : null;
}

// ---- the graph's picture

const pictures = new Map();
for (const svg of document.querySelectorAll('svg.graph')) {
  const parts = { svg, edges: new Map(), nodes: new Map(), touched: [] };
  for (const edge of svg.querySelectorAll('.edge')) parts.edges.set(edge.dataset.label, edge);
  for (const node of svg.querySelectorAll('.node')) parts.nodes.set(node.dataset.node, node);
  pictures.set(svg.id, parts);
}

function clear(picture) {
  for (const part of picture.touched) {
    part.classList.remove('walked', 'filled', 'last', 'here', 'second');
    const turns = part.querySelector('.turns');
    if (turns && turns.textContent) turns.textContent = '';
  }
  picture.touched = [];
}

// Draws steps of a walk, each its label and its class, with the numbers of its turns, and marks where it ends.
function draw(picture, steps, here) {
  const turns = new Map();
  steps.forEach(([label, kind], place) => {
    const edge = picture.edges.get(label);
    if (!turns.has(label)) turns.set(label, []);
    turns.get(label).push(place + 1);
    edge.classList.add(kind);
    picture.touched.push(edge);
    if (place + 1 === steps.length) edge.classList.add('last');
  });
  for (const [label, places] of turns) {
    picture.edges.get(label).querySelector('.turns').textContent = places.length > 2 ? `${places[0]}‥${places.at(-1)}` : places.join(',');
  }
  if (here) {
    picture.nodes.get(here).classList.add('here');
    picture.touched.push(picture.nodes.get(here));
  }
}

function show(scroll, part) {
  const outer = scroll.getBoundingClientRect(), inner = part.getBoundingClientRect();
  if (inner.top < outer.top + 20 || inner.bottom > outer.bottom - 20) scroll.scrollTop += inner.top - outer.top - outer.height / 2;
}

// ---- the cursor

let cursor = 0, last = 0, render = () => {};

function go(place) {
  cursor = Math.max(0, Math.min(last, place));
  render(cursor);
  at('first').disabled = at('back').disabled = cursor === 0;
  at('next').disabled = at('end').disabled = cursor === last;
  const slide = at('slide');
  if (slide) {
    slide.value = cursor;
    slide.setAttribute('aria-valuetext', at('where').textContent);
  }
}

const keys = {
  ArrowRight: () => go(cursor + 1), ArrowDown: () => go(cursor + 1), ArrowLeft: () => go(cursor - 1), ArrowUp: () => go(cursor - 1),
  Home: () => go(0), End: () => go(last), PageDown: () => go(cursor + 10), PageUp: () => go(cursor - 10), r: () => refusal(),
};
document.addEventListener('keydown', event => {
  if (event.ctrlKey || event.metaKey || event.altKey || event.target.tagName === 'SELECT' || !keys[event.key]) return;
  event.preventDefault();
  keys[event.key]();
});
at('first').onclick = () => go(0);
at('back').onclick = () => go(cursor - 1);
at('next').onclick = () => go(cursor + 1);
at('end').onclick = () => go(last);
if (at('slide')) at('slide').oninput = () => go(Number(at('slide').value));
if (at('refusal')) at('refusal').onclick = () => refusal();

function refusal() {
  const places = data.steps ? data.steps.map((step, place) => step.refused === undefined ? 0 : place + 1).filter(place => place) : [];
  const next = places.find(place => place > cursor) ?? places[0];
  if (next) go(next);
}

// ---- a run

function run() {
  const count = data.lines.length, row = data.row;
  const breaks = data.premises.map(premise => premise.broken).filter(step => step !== null);
  const broken = breaks.length ? Math.min(...breaks) : null;
  const sessions = new Map(data.sessions.map(session => [session.name, session]));
  const honest = new Set(data.honest);
  let chosen = null;
  last = count + 1;

  function name(who) {
    return make('b', {}, who, honest.has(who) || who === 'the network' ? '' : ' (compromised)');
  }

  // What happened, in a sentence.
  function told(place) {
    if (place === 0) return ['Before the first step. ', make('span', { class: 'quiet' }, 'Go on with →, or choose a step in the chart.')];
    if (place > count) {
      return broken === null ? ['The report ends: both assumptions hold, and of each session one walk explains what the honest ones did.']
        : [make('b', { class: 'broken' }, `The report ends: an assumption is broken at step ${broken}, so no walk is promised.`)];
    }
    const step = data.steps[place - 1], frame = data.frames[step.frame], words = data.lines[place - 1].split(' ');
    if (step.kind === 'craft') {
      return step.name === step.who ? [name(step.who), ` crafts a frame, ${frame.name}, of what the compromised know.`]
        : [`Somebody crafts a frame in the name of ${step.name}: ${frame.name}.`];
    }
    if (step.refused !== undefined) {
      const why = make('b', { class: 'refused' }, words.slice(3).join(' '));
      const from = step.kind === 'deliver' ? [' refuses ', frame ? frame.name : 'a frame', ' from ', name(step.source), ': '] : [`'s ${step.kind} is refused: `];
      return [name(step.who), ...from, why, '.'];
    }
    if (step.kind === 'deliver') {
      return [name(step.who), ' ', make('b', { class: 'accepted' }, 'accepts'), ` ${frame.name} from `, name(step.source), `: ${words[4]} at time ${words[6]}.`];
    }
    if (step.kind === 'act') return [name(step.who), ` sends ${words[4]} at time ${words[6]} to `, name(words[8]), `, as ${words[10]}.`];
    return [name(step.who), step.kind === 'start' ? ` starts ${words[2]} as ${words[5]}.` : ` abandons ${words[2]}.`];
  }

  // Which items of a frame are wrong, by the refusal's words.
  function wrong(place) {
    const words = data.lines[place - 1].split(' '), item = words.indexOf('item');
    return { item: data.steps[place - 1].refused !== undefined && item > 0 ? Number(words[item + 1]) : 0, opening: words[3] === 'bad-opening' ? words[4] : null,
      tag: words[3] === 'bad-frame-tag' };
  }

  function tag([digits, source]) {
    return source ? [`${digits} `, make('em', {}, source)] : [digits];
  }

  function frame(step, place) {
    const it = data.frames[step.frame];
    if (!it) return [];
    const bad = wrong(place), by = it.by && !it.change ? it.by : null;
    const head = `${it.name}${it.change ? `, changed on the way (${it.change})` : ''}: ${it.size.toLocaleString('en')} bytes`
      + (by ? `, made by ${by} at step ${it.at}` : it.by ? `, of the frame that ${it.by} made at step ${it.at}` : '');
    const kind = by && !honest.has(by) ? 'frame compromised' : 'frame';
    if (it.fault) return [make('h3', {}, 'The frame'), make('div', { class: kind }, make('p', {}, head), make('ul', {}, make('li', { class: 'wrong' }, `No frame: ${it.fault}`)))];
    const items = it.items.map(([label, role, time, delta, tags], number) => make('li', { class: bad.item === number + 1 && 'wrong' },
      make('b', {}, label), ` of ${role}, time ${time}`,
      delta.length ? make('small', {}, 'commits to ', delta.map(([variable, digits]) => `${variable} ${digits}`).join(', ')) : null,
      tags.map(([role_, digits, source]) => make('small', {}, `tag for ${role_}: `, ...tag([digits, source])))));
    const openings = it.openings.map(([variable, value]) => make('li', { class: bad.opening === variable && 'wrong' }, 'opens ', make('b', {}, `${variable}=${value}`)));
    const know = it.know ? make('li', {}, 'made with commitments to ', it.know.map(([variable, value]) => `${variable}=${value}`).join(', '), ', which no item here has') : null;
    const seal = make('li', { class: bad.tag && 'wrong' }, 'frame tag', make('small', {}, ...tag(it.tag)));
    const cast = it.joins ? make('li', {}, 'joins with the cast ', it.cast.map(([role, who]) => `${who} as ${role}`).join(', '), make('small', {}, `nonce ${it.nonce}`)) : null;
    return [make('h3', {}, 'What the frame carries'), make('div', { class: kind },
      make('p', {}, head, make('br'), `${it.joins ? 'joins' : 'continues'} ${it.session}, from ${it.from} to ${it.to}`), make('ul', {}, cast, items, openings, know, seal))];
  }

  function checks(step, place) {
    if (!step.checks) return [];
    const kind = step.kind === 'deliver' ? (data.frames[step.frame] || {}).joins ? 'join' : 'go on' : step.kind;
    const made = step.checks.map(([check, values], number) => {
      const no = number === step.refused;
      return make('li', { class: no && 'no' }, make('span', { class: 'mark' }, no ? '✗' : '✓'), make('span', { class: 'ask' }, data.checks[check]),
        make('code', {}, no ? `refused: ${data.lines[place - 1].split(' ').slice(3).join(' ')}` : check),
        values.length ? make('small', {}, values.map(([text, fits], one) => [one ? '; ' : '', fits ? text : make('b', {}, text)])) : null);
    });
    const rest = step.refused === undefined ? [] : data.orders[kind].slice(data.orders[kind].indexOf(step.checks.at(-1)[0]) + 1)
      .map(check => make('li', { class: 'skipped' }, make('span', { class: 'mark' }, '·'), make('span', {}, data.checks[check]), make('code', {}, 'not reached')));
    return [make('h3', {}, step.refused === undefined ? 'Every check is passed' : 'The checks, in their order'), make('ol', { class: 'checks' }, made, rest)];
  }

  // The check that refuses, by itself.
  function stop(step, place) {
    if (step.refused === undefined) return null;
    const [check, values] = step.checks[step.refused];
    return make('div', { class: 'stop' }, make('p', {}, '✗ ', data.checks[check], '?'), make('code', {}, values.filter(([, fits]) => !fits).map(([text]) => text).join('; ')),
      step.cause ? make('p', { class: 'cause' }, `${step.cause}.`) : null);
  }

  function conclusion() {
    return [make('h3', {}, 'What the report concludes'), make('div', { class: 'frame' }, make('ul', {}, data.end.map(line => make('li', {}, make('code', {}, line)))))];
  }

  function premise(place) {
    return data.premises.filter(it => it.broken === place && place > 0).map(it => make('p', { class: 'why' }, make('b', { class: 'broken' }, `${it.line}: `), it.why, '.'));
  }

  // Who holds what.
  const holders = new Map();
  for (const it of data.held) {
    if (!holders.has(it.session)) holders.set(it.session, new Map());
    holders.get(it.session).set(it.who, it);
  }

  // Which frames were sent to whom, and who crafted which, each with its step.
  const sentTo = new Map(), madeBy = new Map();
  data.lines.forEach((line, place) => {
    const words = line.split(' ');
    const { kind, who: maker, refused } = data.steps[place];
    const [those, who, frame] = kind === 'craft' ? [madeBy, maker, words[2]] : kind === 'act' && refused === undefined ? [sentTo, words[8], words[10]] : [null];
    if (those && !those.has(who)) those.set(who, []);
    if (those) those.get(who).push([place + 1, frame]);
  });

  function frames(those, who, place) {
    const found = (those.get(who) || []).filter(([step]) => step <= place).map(([, frame]) => frame);
    return found.length > 12 ? [`${found.length} frames, the last ones:`, ...found.slice(-8)] : found;
  }

  function list(words, now, before, text) {
    if (!now.length) return null;
    const had = new Set((before || now).map(one => JSON.stringify(one)));
    return [make('dt', {}, words), make('dd', {}, now.map(one => make('span', { class: !had.has(JSON.stringify(one)) && 'new' }, ...text(one))))];
  }

  function card([role, who, isHonest], session, place) {
    const head = make('h3', {}, who, make('span', {}, ` as ${role}`));
    if (!isHonest) {
      return make('div', { class: 'card compromised' }, head, make('p', {}, make('b', {}, 'compromised')),
        make('dl', {}, list('was sent', frames(sentTo, who, place), null, one => [one]), list('crafted', frames(madeBy, who, place), null, one => [one])),
        make('p', { class: 'quiet' }, 'It may know all that compromised ones know, and make of it what frames it likes.'));
    }
    const holder = holders.get(session.name)?.get(who), found = holder && latest(holder.states, place);
    if (!found) return make('div', { class: 'card honest' }, head, make('p', { class: 'quiet' }, 'Holds nothing of this session yet.'));
    const now = found[1], before = latest(holder.states, found[0] - 1)?.[1], changed = found[0] === place, old = changed ? before : now;
    return make('div', { class: `card honest${changed ? ' now' : ''}` }, head,
      make('p', {}, `at ${now.node}, `, make('b', {}, now.state), `, time ${now.time}`),
      make('dl', {}, list('openings', now.openings, old ? old.openings : [], ([variable, value, current]) => [make('span', { class: !current && 'old', title: current ? undefined : 'was written again since' }, `${variable}=${value}`)]),
        list('commitments', now.commitments, old ? old.commitments : [], ([variable, digits]) => [`${variable} ${digits}`]),
        list('last items', now.items, old ? old.items : [], ([label, sender, time, written, tags]) => [`${label} time ${time}${written.length ? ` with ${written.join(' ')}` : ''}${tags.length ? `, tag for ${tags.join(' ')}` : ''}`])));
  }

  // The session that is shown: the one that was chosen, else the step's own, else the one before.
  function session(place) {
    if (chosen) return sessions.get(chosen);
    for (let step = Math.min(place, count); step > 0; step -= 1) {
      const found = sessions.get(data.steps[step - 1].session);
      if (found) return found;
    }
    return data.sessions[0];
  }

  let castOf = null;
  function shape(place) {
    const it = session(place);
    if (!it) return;
    const picture = pictures.get(`graph${it.graph}`), graph = data.graphs[it.graph];
    if (castOf !== it) {
      castOf = it;
      for (const other of pictures.values()) other.svg.style.display = other === picture ? '' : 'none';
      const plays = new Map(it.cast.map(([role, who, isHonest]) => [role, [who, isHonest]]));
      for (const node of picture.nodes.values()) {
        const [who, isHonest] = plays.get(node.dataset.role);
        node.querySelector('.role').textContent = `${node.dataset.role}: ${who}`;
        node.classList.toggle('honest', isHonest);
        node.classList.toggle('compromised', !isHonest);
      }
    }
    const size = (latest(it.ends, place) || [0, 0])[1], before = (latest(it.ends, place - 1) || [0, 0])[1];
    const walk = it.walk.slice(0, size), end = walk.length ? graph.edges[walk.at(-1)[0]][1] : graph.start;
    clear(picture);
    draw(picture, walk.map(([label, filled]) => [label, filled ? 'filled' : 'walked']), end);
    at('of').textContent = `${it.name}, graph ${graph.name}`;
    const hidden = Math.max(0, walk.length - 24);
    fill('walk', hidden ? make('li', { class: 'before' }, `… ${hidden} steps before`) : null, walk.slice(hidden).map(([, filled, texts], step) => make('li', { class: [filled && 'filled', step + hidden >= before && place <= count && 'new'].filter(one => one).join(' ') || undefined,
      title: filled ? 'filled in: a step of a compromised principal' : undefined }, latest(texts, place)[1])));
    const filled = walk.filter(step => step[1]).length;
    at('walked').textContent = broken !== null && place >= broken ? `An assumption is broken at step ${broken}: from there on no walk is promised. This is the walk before.`
      : walk.length ? `${walk.length} step${walk.length > 1 ? 's' : ''}${filled ? `, ${filled} filled in (*): of the compromised` : ''}; it stands at ${end}.` : `Nobody honest has sent or received; the start is ${end}.`;
    fill('cards', it.cast.map(one => card(one, it, place)));
    at('held-of').textContent = `in ${it.name}, after this step`;
    show(picture.svg.closest('.scroll'), picture.nodes.get(end));
  }

  function top(place) {
    return place * row + data.gap * breaks.filter(step => step <= place).length;
  }

  const body = at('body'), scroll = body.closest('.scroll');
  function chart(place) {
    const inside = place > 0 && place <= count;
    const band = at('band'), later = at('later'), since = at('since');
    band.style.display = inside ? '' : 'none';
    band.style.top = `${top(place - 1)}px`;
    band.style.height = `${row}px`;
    later.style.top = `${top(Math.min(place, count))}px`;
    const step = inside ? data.steps[place - 1] : null, from = step && step.kind === 'deliver' && data.frames[step.frame];
    since.style.display = from && from.at && from.at < place ? '' : 'none';
    if (from && from.at && from.at < place) {
      since.style.left = `${data.places[from.by] - 3.5}px`;
      since.style.top = `${top(from.at - 1) + row - 5}px`;
      since.style.height = `${top(place - 1) - top(from.at - 1) - 3}px`;
      since.style.borderColor = honest.has(from.by) ? 'var(--honest)' : '';
    }
    const y = top(Math.min(Math.max(place, 1), count) - 1), head = Number(at('heads').getAttribute('height'));
    if (y < scroll.scrollTop || y + row > scroll.scrollTop + scroll.clientHeight - head - 12) scroll.scrollTop = y - (scroll.clientHeight - head) / 2;
    const x = step ? data.places[step.who] : 0;
    if (step && (x < scroll.scrollLeft + 60 || x > scroll.scrollLeft + scroll.clientWidth - 60)) scroll.scrollLeft = x - scroll.clientWidth / 2;
  }

  render = place => {
    const line = at('line'), inside = place > 0 && place <= count, step = inside ? data.steps[place - 1] : null;
    at('where').textContent = place === 0 ? `before step 1 of ${count}` : inside ? `step ${place} of ${count}` : `the end, after ${count} steps`;
    line.textContent = place === 0 ? 'nothing has happened yet' : inside ? data.lines[place - 1] : data.end.at(-1);
    line.className = !step ? (place > count && broken !== null ? 'broken' : '') : breaks.includes(place) ? 'broken' : step.refused !== undefined ? 'refused'
      : step.kind === 'deliver' ? 'accepted' : step.kind === 'craft' ? 'crafted' : 'made';
    fill('told', told(place));
    fill('detail', step ? [premise(place), stop(step, place), frame(step, place), checks(step, place)] : null,
      place > count ? conclusion() : null);
    at('detail').closest('.scroll').scrollTop = 0;
    shape(place);
    chart(place);
  };

  at('rows').addEventListener('click', event => {
    const found = event.target.closest('.row');
    if (found) go(Number(found.dataset.step));
  });
  if (at('session')) {
    at('session').onchange = event => {
      chosen = event.target.value || null;
      go(cursor);
    };
  }
  const first = data.steps.findIndex(step => step.refused !== undefined) + 1;
  return broken || first || last;
}

// ---- a graph with claims

function graph() {
  const picture = pictures.get('graph0'), shape = data.graphs[0];
  let claim = null;

  render = place => {
    clear(picture);
    const steps = claim ? claim.walks[0] : [], walk = steps.slice(0, place);
    const other = claim && claim.walks[1] ? claim.walks[1].map(label => [label, 'second']) : [];
    if (other.length) draw(picture, other, null);
    const end = walk.length ? shape.edges[walk.at(-1)][1] : claim ? claim.from : null;
    draw(picture, walk.map(label => [label, 'walked']), end);
    at('where').textContent = claim ? `step ${place} of ${last} of the walk` : 'no walk is chosen';
    at('line').textContent = claim ? claim.line : data.verdict;
    at('line').className = (claim ? claim.fails : data.refused) ? 'refused' : 'accepted';
    fill('walk', walk.map((label, step) => make('li', { class: step + 1 === walk.length && 'new' }, label)));
    at('walked').textContent = claim ? (walk.length ? `It stands at ${end}.` : `It begins at ${end}.`) + (other.length ? ` The other walk from ${claim.from}, in vermilion dashes: ${claim.walks[1].join(' ')}.` : '') : 'Choose what fails to see its walk.';
    if (end) show(picture.svg.closest('.scroll'), picture.nodes.get(end));
  };

  function choose(number) {
    claim = data.claims[number] ?? null;
    if (claim && !claim.walks.length) claim = { ...claim, walks: [[]], from: shape.start };
    document.querySelectorAll('.claims button').forEach((button, place) => button.setAttribute('aria-pressed', String(place === number)));
    last = claim ? claim.walks[0].length : 0;
    if (at('slide')) at('slide').max = last;
    go(last);
  }

  document.querySelectorAll('.claims button').forEach((button, place) => { button.onclick = () => choose(place); });
  const first = data.claims.findIndex(it => it.fails);
  choose(first);
  return null;
}

const opening = data.kind === 'run' ? run() : graph();
if (opening !== null) {
  const asked = () => Number((/^#(\d+)$/.exec(location.hash) || [])[1] ?? opening);
  go(asked());
  addEventListener('hashchange', () => go(asked()));
}

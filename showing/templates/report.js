'use strict';
// The page says all without this script but for groups behind the first ones of each kind. It shows these on demand, filters, draws the way of
// the group under the pointer, and gives keys.
(function () {
  const $ = (s, e) => (e || document).querySelector(s);
  const all = (s, e) => Array.from((e || document).querySelectorAll(s));
  const data = JSON.parse($('#data').textContent);
  // The groups, in the order of the page, are read where they are wanted first: of very many that takes a second.
  let known = null, read = null;
  const groups = () => read || (read = JSON.parse($('#rest').textContent));
  const BATCH = 200;
  const PLACE = 0, KIND = 1, SOURCE = 2, DESTINATION = 3, WHAT = 4, OTHER = 5, WORDS = 6, OLD = 7, NEW = 8, ROWS = 9, FIELDS = 10, WHY = 11;
  const protocols = { icmp: 1, igmp: 2, ipinip: 4, tcp: 6, udp: 17, gre: 47, esp: 50, ahp: 51, eigrp: 88, ospf: 89, pim: 103 };
  const widths = [32, 32, 8, 16, 16, 8];
  document.documentElement.classList.add('js');

  // ---- elements

  function element(name, attributes, ...inside) {
    const made = document.createElement(name);
    for (const key in attributes) made.setAttribute(key, attributes[key]);
    made.append(...inside);
    return made;
  }
  const counted = (n, one, several) => n.toLocaleString('en-US') + ' ' + (n === 1 ? one : several);
  const row = (name, inside) => element('div', {}, element('dt', {}, name), element('dd', {}, inside));
  const code = text => element('code', {}, text);

  function cells(hop, side) {
    if (!hop) return [element('td', { colspan: '2', class: side + ' none' })];
    const texts = element('td', { class: side });
    hop[1].forEach(text => texts.append(element('span', { class: 'does' }, text)));
    hop[2].forEach(text => texts.append(element('span', { class: 'next' }, text)));
    return [element('td', { class: side + ' dev' }, hop[0]), texts];
  }
  function hops(why) {
    const body = element('tbody', {});
    if (why.same.length) body.append(element('tr', { class: 'same' }, element('td', { colspan: '4' }, 'same in both: ' + why.same.join(' \u2192 '))));
    why.rows.forEach((pair, at) => body.append(element('tr', at ? {} : { class: 'part' }, ...cells(pair[0], 'today'), ...cells(pair[1], 'plan'))));
    const head = element('tr', {}, element('th', { colspan: '2', scope: 'colgroup', class: 'today' }, 'today'),
      element('th', { colspan: '2', scope: 'colgroup', class: 'plan' }, 'planned'));
    const columns = element('colgroup', {}, element('col', { class: 'c1' }), element('col', {}), element('col', { class: 'c1' }), element('col', {}));
    const found = [element('table', { class: 'hops' }, columns, element('thead', {}, head), body)];
    const first = why.rows[0];
    if (first && first[0] && JSON.stringify(first[0]) === JSON.stringify(first[1])) {
      found.push(element('p', { class: 'note' }, 'This packet goes the same way in both networks.'));
    }
    if (why.more) found.push(element('p', { class: 'note' }, 'and ' + counted(why.more, 'hop', 'hops') + ' more: ', code('review trace'), ' has all.'));
    return found;
  }

  // A group by its number on the page, from 0, as the template has it.
  function built(number) {
    const g = groups()[number], kind = data.kinds[g[KIND]], place = data.places[g[PLACE]];
    const what = element('span', { class: 'what' },
      element('span', { class: 'flow' }, element('b', {}, g[SOURCE]), ' ', element('i', {}, '\u2192'), ' ', element('b', {}, g[DESTINATION])), ' ',
      element('span', { class: 'out' }, g[OTHER]));
    if (g[WHAT]) what.append(' ', element('span', { class: 'pr' }, g[WHAT]));
    const summary = element('summary', {}, element('span', { class: 'nr' }, String(number + 1)),
      element('span', { class: 'kind' }, element('span', { 'aria-hidden': 'true' }, kind[1]), ' ', element('em', {}, kind[0])), what,
      element('span', { class: 'at' }, place[0]), element('span', { class: 'rows' }, counted(g[ROWS], 'row', 'rows')));
    const list = element('dl', {}, row('at', place[1]), row('packets', g[WORDS]), row('today', code(g[OLD])), row('planned', code(g[NEW])));
    const inside = element('div', { class: 'why' }, list);
    if (g[WHY]) {
      list.append(row('example', code(g[WHY].packet)));
      inside.append(...hops(g[WHY]));
    }
    return watched(element('details', { class: 'f c-' + kind[2], id: 'g' + (number + 1), name: 'group' }, summary, inside));
  }

  // ---- the picture

  let chosen = '';
  function draw(id) {
    all('.way, .ends').forEach(g => g.classList.toggle('on', g.id.slice(1) === id.slice(1)));
    const f = id && document.getElementById(id);
    const net = $('#net');
    if (net) net.setAttribute('class', f ? Array.from(f.classList).find(c => c.startsWith('c-')) || '' : '');
  }
  function watched(f) {
    const s = $('summary', f);
    f.addEventListener('toggle', () => { if (f.open) { chosen = f.id; draw(chosen); } });
    s.addEventListener('focus', () => draw(f.id));
    s.addEventListener('blur', () => draw(chosen));
    s.addEventListener('pointerenter', () => draw(f.id));
    s.addEventListener('pointerleave', () => draw(chosen));
    return f;
  }
  all('details.f').forEach(watched);

  // ---- the filter

  const split = text => text.toLowerCase().split(/[ :|]+/).filter(w => w && w !== '->');
  const wordsOf = g => split([...data.places[g[PLACE]], data.kinds[g[KIND]][0], g[OLD], g[NEW]].join(' '));
  function isKnown(word) {
    if (!known) {
      known = new Set();
      data.places.forEach(place => split(place.join(' ')).forEach(w => known.add(w)));
      groups().forEach(g => wordsOf(g).forEach(w => known.add(w)));
    }
    return known.has(word);
  }
  // An address as a number, or null where the text is none.
  function address(text) {
    const parts = text.split('.');
    if (parts.length !== 4 || !parts.every(p => /^[0-9]{1,3}$/.test(p) && Number(p) < 256)) return null;
    return parts.reduce((n, p) => n * 256 + Number(p), 0);
  }
  const maskOf = length => length === 0 ? 0 : (-1 << (32 - length));
  // A pattern of a field: which bits it fixes, and these bits.
  function pattern(text, width) {
    if (text === '*') return [0, 0];
    if (text.length === width && /^[01*]+$/.test(text)) return [parseInt(text.replace(/0/g, '1').replace(/\*/g, '0'), 2) | 0, parseInt(text.replace(/\*/g, '0'), 2) | 0];
    if (width !== 32) return [-1, Number(text)];
    const parts = text.split('/');
    return [parts.length > 1 ? maskOf(Number(parts[1])) : -1, address(parts[0]) | 0];
  }
  const patterns = new Map();
  function fixedOf(text, width) {
    const key = width + ' ' + text;
    let found = patterns.get(key);
    if (!found) { found = pattern(text, width); patterns.set(key, found); }
    return found;
  }
  // Whether a pattern of a field holds a value whose bits under the mask are these.
  function meets(g, field, mask, bits) {
    return g[FIELDS].split(';')[field].split(' ').some(text => {
      const [fixed, own] = fixedOf(text, widths[field]);
      return ((fixed & mask & (own ^ bits)) >>> 0) === 0;
    });
  }
  // What a word asks of a group; null where it isn't understood.
  function asked(word) {
    const parts = word.split('/');
    const at = address(parts[0]);
    if (at !== null && (parts.length === 1 || (parts.length === 2 && /^[0-9]{1,2}$/.test(parts[1]) && Number(parts[1]) <= 32))) {
      const mask = parts.length === 1 ? -1 : maskOf(Number(parts[1]));
      return g => meets(g, 0, mask, at) || meets(g, 1, mask, at);
    }
    if (/^[0-9]{1,5}$/.test(word) && Number(word) < 65536) return g => meets(g, 3, -1, Number(word)) || meets(g, 4, -1, Number(word));
    if (Object.prototype.hasOwnProperty.call(protocols, word)) return g => meets(g, 2, -1, protocols[word]);
    return isKnown(word) ? g => wordsOf(g).includes(word) : null;
  }

  const tools = element('div', { class: 'tools' },
    element('input', { type: 'search', id: 'words', placeholder: '10.0.0.1 tcp 443 R1', 'aria-label': 'Filter by addresses, prefixes, ports, protocols, devices and words of outcomes', autocomplete: 'off', spellcheck: 'false' }),
    element('select', { id: 'place', 'aria-label': 'Ingress' }, element('option', { value: '' }, 'all ingresses')),
    element('button', { type: 'button', id: 'clear' }, 'Clear'),
    element('output', { id: 'count', for: 'words place' }), element('p', { class: 'told', id: 'told', role: 'status' }));
  const input = $('#words', tools), place = $('#place', tools);
  data.places.forEach((names, at) => place.append(element('option', { value: String(at) }, names[1])));
  if (data.total) $('#groups h2').after(tools);

  // Numbers of the groups of each kind that the filter leaves, and how many of them stand on the page.
  let next = 0;
  const sections = data.kinds.map(kind => {
    const element = document.getElementById(kind[4]), first = next;
    next += kind[5];
    return { element, first, left: Array.from({ length: kind[5] }, (_, at) => first + at), shown: all('details.f', element).length };
  });

  function tellRest(section) {
    const rest = $('.rest', section.element), left = section.left.length - section.shown;
    rest.hidden = left === 0;
    const button = element('button', { type: 'button' }, 'Show ' + Math.min(left, BATCH).toLocaleString('en-US') + ' more of ' + left.toLocaleString('en-US'));
    button.addEventListener('click', () => more(section));
    rest.replaceChildren(button);
  }
  function more(section) {
    const next = section.left.slice(section.shown, section.shown + BATCH);
    $('.list', section.element).append(...next.map(built));
    section.shown += next.length;
    tellRest(section);
  }
  function show() {
    const words = input.value.toLowerCase().split(/[ ,]+/).filter(Boolean), tests = [], unknown = [];
    for (const word of words) {
      const test = asked(word);
      if (test) tests.push(test); else unknown.push(word);
    }
    $('#told', tools).textContent = unknown.length ? 'Not understood: ' + unknown.join(' ') : '';
    const fits = g => unknown.length === 0 && (place.value === '' || g[PLACE] === Number(place.value)) && tests.every(test => test(g));
    sections.forEach(section => { section.left = []; });
    let count = 0;
    groups().forEach((g, number) => { if (fits(g)) { sections[g[KIND]].left.push(number); count += 1; } });
    for (const section of sections) {
      $('.list', section.element).replaceChildren();
      section.shown = 0;
      more(section);
      section.element.hidden = section.left.length === 0;
    }
    const filtered = count !== data.total;
    const total = counted(data.total, 'group', 'groups');
    $('#count', tools).textContent = filtered ? count.toLocaleString('en-US') + ' of ' + total : total;
    press(words);
  }
  input.addEventListener('input', show);
  place.addEventListener('change', show);
  $('#clear', tools).addEventListener('click', () => { input.value = ''; place.value = ''; show(); });
  sections.forEach(tellRest);

  // ---- devices and ingresses that are pressed

  const devices = all('[data-device]'), places = all('[data-place]');
  function press(words) {
    devices.forEach(device => device.setAttribute('aria-pressed', String(words.includes(device.dataset.device.toLowerCase()))));
    places.forEach(cell => cell.setAttribute('aria-pressed', String(place.value === cell.dataset.place)));
  }
  function button(e, act) {
    e.setAttribute('role', 'button');
    e.setAttribute('tabindex', '0');
    e.setAttribute('aria-pressed', 'false');
    e.addEventListener('click', act);
    e.addEventListener('keydown', event => {
      if (event.key === 'Enter' || event.key === ' ') { event.preventDefault(); act(); }
    });
  }
  devices.forEach(device => button(device, () => {
    const name = device.dataset.device.toLowerCase(), words = input.value.split(/[ ,]+/).filter(Boolean);
    const here = words.findIndex(word => word.toLowerCase() === name);
    if (here < 0) words.push(device.dataset.device); else words.splice(here, 1);
    input.value = words.join(' ');
    show();
  }));
  places.forEach(cell => button(cell, () => {
    place.value = place.value === cell.dataset.place ? '' : cell.dataset.place;
    show();
  }));

  // ---- addresses, keys and paper

  // Behind # stands what is unfolded, with all that it stands in, or words to filter by.
  function follow() {
    const text = decodeURIComponent(location.hash.slice(1));
    if (!text) return;
    const number = /^g[0-9]+$/.test(text) ? Number(text.slice(1)) : 0;
    if (number >= 1 && number <= data.total) {
      const section = sections.filter(one => one.first < number).pop();
      while (!document.getElementById(text) && section.shown < section.left.length) more(section);
    }
    const at = document.getElementById(text);
    if (!at) { input.value = text; show(); return; }
    for (let e = at; e; e = e.parentElement) if (e.tagName === 'DETAILS') e.open = true;
    at.scrollIntoView({ block: 'nearest' });
  }
  $('#count', tools).textContent = counted(data.total, 'group', 'groups');
  addEventListener('hashchange', follow);
  follow();
  const drawn = all('details.f').find(f => document.getElementById('w' + f.id.slice(1)));
  if (drawn && !chosen) { chosen = drawn.id; draw(chosen); }
  addEventListener('beforeprint', () => sections.forEach(section => {
    while (section.shown < Math.min(section.left.length, 5 * BATCH)) more(section);
  }));
  addEventListener('keydown', e => {
    if (e.ctrlKey || e.metaKey || e.altKey) return;
    if (e.key === 'Escape' && input.value) { input.value = ''; show(); input.blur(); return; }
    if (e.target.matches('input, textarea, select')) return;
    if (e.key === '/') { e.preventDefault(); input.focus(); return; }
    const step = { j: 1, ArrowDown: 1, k: -1, ArrowUp: -1 }[e.key];
    const here = document.activeElement.closest && document.activeElement.closest('details.f');
    if (!step || (e.key.startsWith('Arrow') && !here)) return;
    const seen = all('details.f').filter(f => f.offsetParent);
    const next = seen[here ? seen.indexOf(here) + step : step > 0 ? 0 : seen.length - 1];
    if (next) { e.preventDefault(); $('summary', next).focus(); }
  });
})();

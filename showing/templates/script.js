'use strict';
// The page says all without this script. It adds the way of the finding under the pointer, links that unfold what they lead to, a filter,
// keys, and the verdict as text for the ticket.
(function () {
  const $ = (s, e) => (e || document).querySelector(s);
  const all = (s, e) => Array.from((e || document).querySelectorAll(s));
  const findings = all('details.f');
  document.documentElement.classList.add('js');

  // The way of one finding in the picture.
  let chosen = '';
  function draw(id) {
    all('.way, .ends').forEach(g => g.classList.toggle('on', g.id.slice(1) === id.slice(1)));
    const f = id && document.getElementById(id);
    const net = $('#net');
    if (net) net.setAttribute('class', f ? Array.from(f.classList).find(c => c.startsWith('c-')) || '' : '');
  }
  findings.forEach(f => {
    const s = $('summary', f);
    f.addEventListener('toggle', () => { if (f.open) { chosen = f.id; draw(chosen); } });
    s.addEventListener('focus', () => draw(f.id));
    s.addEventListener('blur', () => draw(chosen));
    s.addEventListener('pointerenter', () => draw(f.id));
    s.addEventListener('pointerleave', () => draw(chosen));
  });
  const first = findings.find(f => document.getElementById('w' + f.id.slice(1)));
  if (first) { chosen = first.id; draw(chosen); }

  // What an address or a link leads to is unfolded, with all that it stands in.
  function follow() {
    const at = document.getElementById(decodeURIComponent(location.hash.slice(1)));
    if (!at) return;
    for (let e = at; e; e = e.parentElement) if (e.tagName === 'DETAILS') e.open = true;
    at.scrollIntoView({ block: 'nearest' });
  }
  addEventListener('hashchange', follow);
  follow();

  // A filter: every word has to be in the finding.
  const tools = document.createElement('div');
  tools.className = 'tools';
  tools.innerHTML = '<input type="search" placeholder="Filter: 10.10.21.1, loops, DIST2.cfg:75" aria-label="Filter the findings">' +
    '<button type="button">Copy for the ticket</button><span><kbd>j</kbd> <kbd>k</kbd> next, previous <kbd>/</kbd> filter</span><span aria-live="polite"></span>';
  $('#findings h2').after(tools);
  const input = $('input', tools), told = $('[aria-live]', tools);
  const words = new Map(findings.map(f => [f, f.textContent.toLowerCase()]));
  input.addEventListener('input', () => {
    const asked = input.value.toLowerCase().split(/\s+/).filter(Boolean);
    let shown = 0;
    findings.forEach(f => { f.hidden = !asked.every(w => words.get(f).includes(w)); shown += f.hidden ? 0 : 1; });
    all('.grp').forEach(g => { g.hidden = !$('.f:not([hidden])', g); });
    told.textContent = asked.length ? shown + ' of ' + findings.length : '';
  });

  // The verdict, and what isn't as expected, as lines of text.
  const line = e => e.textContent.replace(/\s+/g, ' ').trim();
  function text() {
    const rows = all('#missing .f, #unexpected .f').map(f => '- ' + all('summary > span', f).map(line).filter(Boolean).join('  '));
    return [line($('.crumb')), line($('h1'))].concat(all('.verdict p').map(line), rows).join('\n') + '\n';
  }
  $('button', tools).addEventListener('click', e => {
    const area = document.createElement('textarea');
    area.value = text();
    document.body.append(area);
    area.select();
    if (document.execCommand('copy')) {
      e.target.textContent = 'Copied';
      setTimeout(() => { e.target.textContent = 'Copy for the ticket'; }, 1500);
    }
    area.remove();
  });

  // Keys.
  addEventListener('keydown', e => {
    if (e.ctrlKey || e.metaKey || e.altKey) return;
    if (e.key === 'Escape') { input.value = ''; input.dispatchEvent(new Event('input')); input.blur(); return; }
    if (e.target.matches('input, textarea')) return;
    if (e.key === '/') { e.preventDefault(); input.focus(); return; }
    const step = { j: 1, ArrowDown: 1, k: -1, ArrowUp: -1 }[e.key];
    const here = document.activeElement.closest && document.activeElement.closest('details.f');
    if (!step || (e.key.startsWith('Arrow') && !here)) return;
    const seen = findings.filter(f => !f.hidden && f.offsetParent);
    const next = seen[here ? seen.indexOf(here) + step : step > 0 ? 0 : seen.length - 1];
    if (next) { e.preventDefault(); $('summary', next).focus(); }
  });
})();

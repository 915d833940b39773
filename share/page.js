'use strict';
// The script of a build's page: zooms the picture, describes its bars, and sorts and searches all calls. Without it the page has its sums,
// its still picture and the calls that took longest. Texts go into the page as text and nothing else.
(function () {
  const build = JSON.parse(document.getElementById('build').textContent);
  const texts = build.texts;
  const START = 0, TIME = 1, LANE = 2, KIND = 3, WHAT = 4, STATUS = 5, PROCESS = 6, COMPILER = 7, DIR = 8, INPUT = 9, OUTPUT = 10,
    REASON = 11, WHY = 12, TEXT_TIME = 13, COMPILE_TIME = 14, SAVED = 16, WORDS = 17;
  const calls = build.calls;
  const byId = (id) => document.getElementById(id);

  // ---- What is said of a call.

  function time(us) {
    if (us < 1000) return us < 1 ? '0 s' : Math.round(us) + ' µs';
    if (us < 1e6) return Math.floor(us / 1000) + ' ms';
    if (us < 6e7) return (Math.floor(us / 1e4) / 100).toFixed(2) + ' s';
    const minutes = Math.floor(us / 6e7);
    if (us < 3.6e9) return minutes + ' min ' + String(Math.floor(us / 1e6) % 60).padStart(2, '0') + ' s';
    return Math.floor(minutes / 60) + ' h ' + String(minutes % 60).padStart(2, '0') + ' min';
  }
  const name = (call) => texts[call[INPUT]] || texts[call[OUTPUT]] || texts[call[COMPILER]] || '(no name)';
  const short = (text) => text.length > 200 ? text.slice(0, 200) + '…' : text;
  const why = (call) => texts[call[WHY]] || texts[call[REASON]];
  const word = (text) => /^[A-Za-z0-9_@%+=:,./^-]+$/.test(text) ? text : "'" + text.replaceAll("'", "'\\''") + "'";
  const command = (call) => [call[COMPILER], ...call.slice(WORDS)].map((id) => word(texts[id])).join(' ');

  function element(tag, content, className) {
    const made = document.createElement(tag);
    if (content !== undefined) made.textContent = content;
    if (className) made.className = className;
    return made;
  }

  // ---- The picture.

  const svg = byId('picture'), cursor = byId('cursor'), axis = byId('axis');
  const LANE_HEIGHT = 16, BAR = 12;
  const paths = build.classes.map((it) => svg.querySelector('path.' + it));
  const lanes = Array.from({ length: Math.max(build.lanes, 1) }, () => []);
  calls.forEach((call, at) => lanes[call[LANE]].push(at));
  const wall = Math.max(build.wall, 1);
  let from = 0, to = wall, width = 1000, chosen = -1, isAsked = false;

  const placeOf = (moment) => (moment - from) / (to - from) * width;
  const momentOf = (place) => from + place / width * (to - from);

  function draw() {
    isAsked = false;
    width = Math.max(svg.clientWidth, 50);
    svg.setAttribute('viewBox', '0 0 ' + width + ' ' + lanes.length * LANE_HEIGHT);
    const parts = paths.map(() => []);
    for (const call of calls) {
      const end = call[START] + call[TIME];
      if (end < from || call[START] > to) continue;
      const left = Math.max(placeOf(call[START]), -4), right = Math.min(placeOf(end), width + 4);
      const wide = Math.max(right - left, 0.7).toFixed(1);
      parts[call[KIND]].push('M' + left.toFixed(1) + ' ' + (call[LANE] * LANE_HEIGHT + 2) + 'h' + wide + 'v' + BAR + 'h-' + wide + 'z');
    }
    paths.forEach((path, kind) => path.setAttribute('d', parts[kind].join('')));
    Array.from(axis.children).forEach((label, at) => { label.textContent = time(from + (to - from) * at / 4); });
    drawCursor();
  }
  function ask() {
    if (!isAsked) requestAnimationFrame(draw);
    isAsked = true;
  }
  function drawCursor() {
    if (chosen < 0) return;
    const call = calls[chosen], left = placeOf(call[START]), wide = call[TIME] / (to - from) * width;
    cursor.setAttribute('x', Math.max(left, -6).toFixed(1));
    cursor.setAttribute('y', call[LANE] * LANE_HEIGHT + 1);
    cursor.setAttribute('width', Math.max(Math.min(left + wide, width + 6) - Math.max(left, -6), 3).toFixed(1));
  }
  // Shows so much of the build, at most all of it and at least some microseconds.
  function show(begin, end) {
    const span = Math.min(Math.max(end - begin, 20), wall);
    from = Math.min(Math.max(begin, 0), wall - span);
    to = from + span;
    ask();
  }
  function zoom(factor, at) {
    show(at - (at - from) * factor, at + (to - at) * factor);
  }

  const facts = element('p', '', ''), keys = element('p', '', '');
  facts.id = 'facts';
  facts.setAttribute('aria-live', 'polite');
  keys.id = 'keys';
  const wide = [['wheel, + and −', 'zoom'], ['0', 'all'], ['← →', 'previous and next call'], ['↑ ↓', 'another lane'],
    ['Enter', 'its row in the table']];
  keys.textContent = wide.map(([key, what]) => key + ': ' + what).join(' · ');
  axis.after(facts, keys);
  svg.setAttribute('tabindex', '0');
  svg.setAttribute('aria-describedby', 'keys facts');
  facts.textContent = 'Point at a bar, or focus the picture and press an arrow.';

  function describe(at) {
    const call = calls[at];
    const parts = [name(call), build.kinds[call[KIND]] + ', ' + time(call[TIME]) + ' from ' + time(call[START])];
    if (call[COMPILE_TIME]) parts.push('compiler ' + time(call[COMPILE_TIME]));
    if (call[TEXT_TIME]) parts.push('preprocessor ' + time(call[TEXT_TIME]));
    if (call[SAVED]) parts.push('saved ' + time(call[SAVED]));
    if (call[STATUS]) parts.push('status ' + call[STATUS]);
    if (why(call)) parts.push(why(call));
    facts.textContent = parts.map(short).join(' · ');
  }
  // Marks a call, describes it, and scrolls to it where it isn't in sight.
  function choose(at) {
    if (at < 0 || at >= calls.length) return;
    chosen = at;
    const call = calls[at], span = to - from;
    if (call[START] + call[TIME] < from || call[START] > to) show(call[START] - span / 2, call[START] + span / 2);
    describe(at);
    drawCursor();
    const box = svg.parentElement, top = call[LANE] * LANE_HEIGHT;
    if (top < box.scrollTop || top + LANE_HEIGHT > box.scrollTop + box.clientHeight) box.scrollTop = top - box.clientHeight / 2;
  }
  // The last call of a lane that began at that moment or before; the first one where none did.
  function callAt(lane, moment) {
    let low = 0, high = lane.length;
    while (high - low > 1) {
      const middle = (low + high) >> 1;
      if (calls[lane[middle]][START] <= moment) low = middle; else high = middle;
    }
    return lane.length ? lane[low] : -1;
  }
  function callUnder(event) {
    const box = svg.getBoundingClientRect(), lane = lanes[Math.floor((event.clientY - box.top) / LANE_HEIGHT)];
    if (!lane) return -1;
    const moment = momentOf(event.clientX - box.left), slack = (to - from) / width * 2;
    const at = callAt(lane, moment + slack);
    return at >= 0 && calls[at][START] <= moment + slack && calls[at][START] + calls[at][TIME] >= moment - slack ? at : -1;
  }

  const KEYS = {
    ArrowRight: () => choose(chosen + 1),
    ArrowLeft: () => choose(chosen < 0 ? 0 : chosen - 1),
    ArrowDown: () => otherLane(1),
    ArrowUp: () => otherLane(-1),
    Home: () => choose(0),
    End: () => choose(calls.length - 1),
    '+': () => zoom(0.5, middle()),
    '=': () => zoom(0.5, middle()),
    '-': () => zoom(2, middle()),
    '0': () => show(0, wall),
    Enter: () => showRow(chosen),
  };
  function middle() {
    const call = chosen < 0 ? null : calls[chosen], at = call ? call[START] + call[TIME] / 2 : -1;
    return at >= from && at <= to ? at : (from + to) / 2;
  }
  function otherLane(step) {
    if (chosen < 0) return choose(0);
    const lane = lanes[calls[chosen][LANE] + step];
    if (lane) choose(callAt(lane, calls[chosen][START]));
  }
  svg.addEventListener('keydown', (event) => {
    const act = KEYS[event.key];
    if (!act || event.ctrlKey || event.altKey || event.metaKey) return;
    event.preventDefault();
    act();
  });
  svg.addEventListener('focus', () => { if (chosen < 0 && calls.length) choose(0); });
  svg.addEventListener('wheel', (event) => {
    event.preventDefault();
    const at = momentOf(event.clientX - svg.getBoundingClientRect().left);
    if (event.shiftKey) show(from + (to - from) * Math.sign(event.deltaY + event.deltaX) * 0.2, to + (to - from) * Math.sign(event.deltaY + event.deltaX) * 0.2);
    else zoom(event.deltaY > 0 ? 1.25 : 0.8, at);
  }, { passive: false });
  svg.addEventListener('pointermove', (event) => {
    const at = callUnder(event);
    if (at >= 0 && at !== chosen) choose(at);
  });
  svg.addEventListener('click', (event) => showRow(callUnder(event)));
  addEventListener('resize', ask);

  // ---- The table of calls.

  const PAGE = 100;
  const table = byId('calls').parentElement.querySelector('table'), rows = table.tBodies[0], tools = byId('tools'), shown = byId('shown');
  const columns = [(it) => it[START], (it) => it[TIME], (it) => build.kinds[it[KIND]], name, why];
  let order = calls.map((call, at) => at), sortedBy = 1, falls = true, page = 0;
  const haystacks = calls.map(() => null);

  const search = element('input'), label = element('label', 'Search in names, commands, folders and reasons');
  search.type = 'search';
  search.id = 'search';
  label.append(search);
  const before = element('button', 'Previous'), after = element('button', 'Next');
  before.type = after.type = 'button';
  tools.append(label, before, after);
  tools.hidden = false;

  function haystack(at) {
    const call = calls[at];
    if (haystacks[at] === null) {
      haystacks[at] = [command(call), texts[call[DIR]], texts[call[OUTPUT]], texts[call[WHAT]], build.kinds[call[KIND]], texts[call[REASON]],
        texts[call[WHY]]].join('\n').toLowerCase();
    }
    return haystacks[at];
  }
  function details(call) {
    const list = element('dl');
    const add = (term, text) => { if (text) list.append(element('dt', term), element('dd', text)); };
    add('command', command(call));
    add('folder', texts[call[DIR]]);
    add('output', texts[call[OUTPUT]]);
    add('reason', texts[call[REASON]]);
    add('differed', texts[call[WHY]]);
    add('ran', 'compiler ' + time(call[COMPILE_TIME]) + ', preprocessor ' + time(call[TEXT_TIME]));
    if (call[SAVED]) add('saved', time(call[SAVED]));
    add('status', call[STATUS] + ', process ' + call[PROCESS]);
    return list;
  }
  function rowOf(at) {
    const call = calls[at], row = element('tr'), cell = element('td'), kind = element('td'), more = element('details');
    more.append(element('summary', short(name(call))));
    more.addEventListener('toggle', () => { if (more.open && more.children.length === 1) more.append(details(call)); });
    cell.append(more);
    kind.append(element('i', undefined, build.classes[call[KIND]]), build.kinds[call[KIND]]);
    row.append(element('td', time(call[START]), 'number'), element('td', time(call[TIME]), 'number'), kind, cell, element('td', short(why(call))));
    row.dataset.call = at;
    return row;
  }
  function fill() {
    const pages = Math.max(Math.ceil(order.length / PAGE), 1);
    page = Math.min(Math.max(page, 0), pages - 1);
    const part = order.slice(page * PAGE, (page + 1) * PAGE);
    rows.replaceChildren(...part.map(rowOf));
    before.disabled = page === 0;
    after.disabled = page === pages - 1;
    const first = part.length ? page * PAGE + 1 : 0;
    shown.textContent = first + ' to ' + (page * PAGE + part.length) + ' of ' + order.length +
      (order.length < calls.length ? ' that were found, of ' + calls.length : '') + ' calls.';
  }
  function sort() {
    const key = columns[sortedBy], keys = calls.map(key), sign = falls ? -1 : 1;
    order.sort((one, other) => (keys[one] < keys[other] ? -sign : keys[one] > keys[other] ? sign : one - other));
    Array.from(table.tHead.rows[0].cells).forEach((head, at) => {
      if (at === sortedBy) head.setAttribute('aria-sort', falls ? 'descending' : 'ascending'); else head.removeAttribute('aria-sort');
    });
  }
  function find() {
    const wanted = search.value.toLowerCase().split(' ').filter((it) => it);
    order = calls.map((call, at) => at).filter((at) => wanted.every((it) => haystack(at).includes(it)));
    page = 0;
    sort();
    fill();
  }
  // Shows the row of a call, opened.
  function showRow(at) {
    if (at < 0) return;
    if (!order.includes(at)) {
      search.value = '';
      find();
    }
    page = Math.floor(order.indexOf(at) / PAGE);
    fill();
    const row = rows.querySelector('tr[data-call="' + at + '"]'), more = row.querySelector('details');
    row.className = 'chosen';
    more.open = true;
    row.scrollIntoView({ block: 'center' });
    more.firstChild.focus();
  }
  Array.from(table.tHead.rows[0].cells).forEach((head, at) => {
    const button = element('button', head.textContent);
    button.type = 'button';
    head.replaceChildren(button);
    button.addEventListener('click', () => {
      falls = at === sortedBy ? !falls : at === 1;
      sortedBy = at;
      page = 0;
      sort();
      fill();
    });
  });
  let waits = 0;
  search.addEventListener('input', () => { clearTimeout(waits); waits = setTimeout(find, 120); });
  before.addEventListener('click', () => { page -= 1; fill(); });
  after.addEventListener('click', () => { page += 1; fill(); });

  sort();
  fill();
  draw();
}());

"""What is run in the page."""

FRAMES = """const done = arguments[0];
let frames = 4;
(function next() { frames-- ? requestAnimationFrame(next) : done(); })();"""

FACTS = """return [...document.querySelectorAll(`#${arguments[0]} > div`)].map(each =>
    [...each.querySelectorAll('dt, dd:not(.note), .note, small')].map(part => {
        const own = part.cloneNode(true);
        own.querySelectorAll('small').forEach(note => note.remove());
        return own.textContent.trim();
    }).filter(Boolean));"""

# the cells of the rows that are laid out, by the class of the grid's columns, or by their labels
ROWS = """return [...document.querySelectorAll(`#${arguments[0]} tr:not(.room)`)].map(row =>
    Object.fromEntries([...row.cells].map((cell, place) => {
        const column = [...cell.classList].find(each => each.startsWith('c-'));
        return [column ? column.slice(2) : cell.dataset.label ?? String(place), cell.textContent];
    })));"""

CELLS = """return [...document.querySelectorAll(`#${arguments[0]} tr:not(.room)`)]
    .map(row => [...row.cells].map(cell => cell.textContent));"""

SIGN = "return getComputedStyle(document.getElementById(arguments[0]), '::before').content;"

# whether the cursor is at an element that does not show it
UNSEEN = """const now = document.activeElement;
return now !== document.body && !now.matches('.button *')
    && getComputedStyle(now).outlineStyle === 'none';"""

DEAF = """const asked = window.fetch;
window.deaf = false;
window.fetch = (path, options) => {
    if (!path.endsWith('/status')) return asked(path, options);
    window.deaf = true;
    return new Promise(() => {});
};"""

# a request for the status waits; what names that is noted with its time
SLOW = """const asked = window.fetch, gone = new Promise(done => { window.let_go = done; });
window.fetch = async (path, options) => {
    if (path.endsWith('/status')) await gone;
    return asked(path, options);
};
new MutationObserver(() => { window.named ??= new Date().toLocaleTimeString('en-GB'); })
    .observe(document.getElementById('link'), {childList: true});"""

# the time left as it was drawn last, and when, by a clock that the page does not use
DRAWN = """const note = () => {
    const left = document.getElementById('left').textContent;
    window.drawn = [left, performance.timeOrigin + performance.now()];
};
new MutationObserver(note).observe(document.getElementById('left'), {childList: true});"""

HELD = """const asked = window.fetch, answers = arguments[0];
const gone = new Promise(done => { window.let_go = () => { window.fetch = asked; done(); }; });
window.holds = 0;
window.fetch = async (path, options) => {
    const reply = answers && await asked(path, options);
    if (options.body) window.holds++;
    if (options.body) await gone;
    return reply || asked(path, options);
};"""

# what the page sends next reaches no server, and is answered by a page with status 200
ANSWERED = """const asked = window.fetch, page = arguments[0];
window.fetch = (path, options) => {
    if (!options.body) return asked(path, options);
    window.fetch = asked;
    return Promise.resolve(new Response(page));
};"""

NOTED = """const asked = window.fetch;
window.asks = [];
window.sent = [];
window.fetch = (path, options) => {
    if (path.endsWith('/status')) window.asks.push(performance.now());
    if (options.body) window.sent.push(options.body);
    return asked(path, options);
};"""

# the page's turns of asking for the timetable end; `ended` has how many did
WITHOUT_TURNS = """const later = window.setTimeout;
window.ended = 0;
window.setTimeout = (work, time) => time === 2000 ? void window.ended++ : later(work, time);"""

# every text that an element had from here on
SAID = """window.said = [];
const element = document.getElementById(arguments[0]);
new MutationObserver(() => window.said.push(element.textContent))
    .observe(element, {childList: true, characterData: true, subtree: true});"""

# Elements whose text does not fit into them. Some may end in dots, and on a narrow phone the words
# of a connection are a dot. Also rows whose cells reach beyond them, letters outside their chart,
# and what reaches beyond the window.
CUT = """const all = [...document.querySelectorAll('body *')];
const seen = all.filter(e => e.checkVisibility() && e.getClientRects().length);
const kinds = 'p, h1, h2, dt, dd, td, th, button, label, li, small, figcaption';
const cuts = e => getComputedStyle(e).display !== 'inline'
    && !e.matches('.heard, .heard *, .c-name, .c-worth, .top h1, .latest, .latest *, #link.good');
const texts = seen.filter(e => e.matches(kinds) && !e.closest('thead, dialog')
    && e.scrollWidth > e.clientWidth + 1 && cuts(e));
const bottom = e => e.getBoundingClientRect().bottom;
const rows = seen.filter(e => e.matches('tbody tr:not(.room)'))
    .flatMap(row => [...row.children].filter(cell => bottom(cell) > bottom(row) + 1));
const letters = seen.filter(e => e.matches('svg text')).filter(e => {
    const text = e.getBoundingClientRect(), svg = e.closest('svg').getBoundingClientRect();
    return text.left < svg.left - 1 || text.right > svg.right + 1 || text.bottom > svg.bottom + 1;
});
const frames = [document.documentElement, ...document.querySelectorAll('.frame, #frame')];
const wide = frames.filter(e => e.scrollWidth > e.clientWidth);
return [...texts, ...rows, ...letters, ...wide]
    .map(e => e.tagName + '#' + e.id + ' ' + e.textContent.slice(0, 30));"""

# the least contrast of a text with what is around it, and whose
CONTRAST = """const options = {willReadFrequently: true};
const canvas = document.createElement('canvas').getContext('2d', options);
const bytes = color => {
    canvas.clearRect(0, 0, 1, 1);
    canvas.fillStyle = color;
    canvas.fillRect(0, 0, 1, 1);
    return [...canvas.getImageData(0, 0, 1, 1).data];
};
const light = color => {
    const [r, g, b] = bytes(color).map(
        v => (v /= 255) <= 0.04045 ? v / 12.92 : ((v + 0.055) / 1.055) ** 2.4);
    return 0.2126 * r + 0.7152 * g + 0.0722 * b;
};
const around = e => {
    for (; e; e = e.parentElement) {
        const color = getComputedStyle(e).backgroundColor;
        if (bytes(color)[3] === 255) return color;
    }
    return 'canvas';
};
let least = [99, ''];
for (const e of document.querySelectorAll('body *')) {
    const isOwn = e.matches('input, select')
        || [...e.childNodes].some(n => n.nodeType === 3 && n.data.trim());
    if (!isOwn || !e.checkVisibility() || e.disabled || e.closest('option, title')) continue;
    const style = getComputedStyle(e), color = e.closest('svg') ? style.fill : style.color;
    const [a, b] = [light(color), light(around(e))].sort((x, y) => y - x);
    const ratio = (a + 0.05) / (b + 0.05);
    const name = (e.id || e.className || e.textContent).toString().slice(0, 30);
    if (ratio < least[0]) least = [ratio, e.tagName + ' ' + name];
}
return least;"""

# What is wrong for people who do not see the page as it looks: the rules that do not need a person.
AUDIT = """const found = [], all = [...document.querySelectorAll('*')];
const say = (rule, e) => found.push(rule + ': ' + e.outerHTML.slice(0, 90));
const seen = e => e.checkVisibility();
const focusable = 'a[href], button, input, select, textarea, summary, [tabindex]';
const ids = new Map();
for (const e of all) if (e.id) ids.set(e.id, (ids.get(e.id) ?? 0) + 1);
for (const e of all) {
    if (e.id && ids.get(e.id) > 1) say('an id twice', e);
    for (const name of ['aria-labelledby', 'aria-describedby', 'aria-controls', 'for'])
        for (const id of (e.getAttribute(name) ?? '').split(' ').filter(Boolean))
            if (!ids.has(id)) say(name + ' of nothing', e);
    if (e.tabIndex > 0) say('an order of its own', e);
    if (e.matches('[aria-hidden=true]') && [...e.querySelectorAll(focusable)].some(seen))
        say('a hidden field', e);
    if (e.matches('button, a[href], summary') && e.querySelector(focusable)) say('two in one', e);
    if (e.matches('[role=slider]') && !e.getAttribute('aria-valuetext')) say('no value', e);
    if (e.matches('ul, ol') && [...e.children].some(each => !each.matches('li')))
        say('a list', e);
    if (e.matches('dl') && [...e.children].some(each => !each.matches('div, dt, dd')))
        say('a list of facts', e);
    if (e.matches('img, svg:not([aria-hidden])') && !e.getAttribute('aria-label') && !e.alt)
        say('a picture without a name', e);
    if (e.matches('tr:not(.room) > td') && e.closest('.frame') && !e.dataset.label)
        say('a cell without a label', e);
    if (e.matches('.frame, #frame') && seen(e) && e.scrollHeight > e.clientHeight + 1
        && e.tabIndex < 0 && !e.querySelector('input')) say('scrolled by no key', e);
}
const levels = all.filter(e => /^H[1-6]$/.test(e.tagName) && seen(e)).map(e => +e.tagName[1]);
levels.forEach((n, place) => {
    if (n > (levels[place - 1] ?? 0) + 1) found.push('skips to h' + n);
});
if (document.documentElement.lang !== 'en') found.push('no language');
if (!document.title.trim()) found.push('no title');
if (document.querySelectorAll('main').length !== 1) found.push('not one main part');
return found;"""

# The edges of fields, and the bars and lines of charts, with less contrast to what is around them
# than 3:1.
EDGES = """const options = {willReadFrequently: true};
const canvas = document.createElement('canvas').getContext('2d', options);
const bytes = color => {
    canvas.clearRect(0, 0, 1, 1);
    canvas.fillStyle = color;
    canvas.fillRect(0, 0, 1, 1);
    return [...canvas.getImageData(0, 0, 1, 1).data];
};
const light = color => {
    const [r, g, b] = bytes(color).map(
        v => (v /= 255) <= 0.04045 ? v / 12.92 : ((v + 0.055) / 1.055) ** 2.4);
    return 0.2126 * r + 0.7152 * g + 0.0722 * b;
};
const around = e => {
    for (e = e.parentElement; e; e = e.parentElement) {
        const color = getComputedStyle(e).backgroundColor;
        if (bytes(color)[3] === 255) return color;
    }
    return 'canvas';
};
const fields = 'input:not([type=file], [type=checkbox], :disabled), select, .gauge i';
const shapes = '#chart .blocks, #chart polyline, #chart .axis, #chart .cursor';
return [...document.querySelectorAll(fields + ', ' + shapes)].filter(e => {
    if (!e.checkVisibility()) return false;
    const style = getComputedStyle(e);
    const color = e.matches('.blocks') ? style.fill
        : e.matches(shapes) ? style.stroke
        : e.matches('.gauge i') ? style.backgroundColor : style.borderTopColor;
    const ground = e.matches('.gauge i') ? e.closest('footer') : e;
    const below = e.matches('.gauge i') ? getComputedStyle(ground).backgroundColor : around(e);
    const [a, b] = [light(color), light(below)].sort((x, y) => y - x);
    return (a + 0.05) / (b + 0.05) < 3;
}).map(e => e.tagName + ' ' + (e.id || e.className.baseVal || e.className));"""

# rows and a clock that are marked, and whose mark forced colors would take away
UNMARKED = """const marked = '.frame tr.held > th:first-child, #grid tr.held > th:first-child';
const isMarked = e => parseFloat(getComputedStyle(e).borderLeftWidth) >= 3;
const clock = document.querySelector('#clock.soon, #clock.last');
const isOn = !clock || !clock.checkVisibility()
    || parseFloat(getComputedStyle(clock).borderTopWidth) >= 2;
return [...document.querySelectorAll(marked)].filter(e => e.checkVisibility() && !isMarked(e))
    .map(e => e.textContent).concat(isOn ? [] : ['the clock']);"""

# from here on the elements are noted that a screen reader reads out because they have changed
LIVE = """window.live = new Set();
const kinds = '[role=status], [role=alert], [role=log], [aria-live=polite], [aria-live=assertive]';
for (const e of document.querySelectorAll(kinds)) {
    let before = e.textContent;
    new MutationObserver(() => {
        if (e.textContent !== before && e.textContent && e.checkVisibility()) window.live.add(e.id);
        before = e.textContent;
    }).observe(e, {childList: true, characterData: true, subtree: true});
}"""

# letters of a machine that has none of the pages' own choice: the widest that are common
WIDE_LETTERS = """const sheet = new CSSStyleSheet();
const kinds = 'body, input, select, button, .button';
sheet.replaceSync(kinds + ' { font-family: "DejaVu Sans", sans-serif !important; }');
document.adoptedStyleSheets = arguments[0] ? [sheet] : [];"""

# from here on the page counts the milliseconds from the click that enters until rows are drawn
ENTRY = """const rows = '#' + arguments[0] + ' tr:not(.room)';
document.querySelector('#door button').addEventListener('click', () => {
    const begun = performance.now();
    const look = () => (document.querySelectorAll(rows).length > 1
        ? requestAnimationFrame(() => { window.waited = performance.now() - begun; })
        : requestAnimationFrame(look));
    look();
});"""

# everything in which a page could leave a token
KEPT = """return [location.href, document.cookie,
    JSON.stringify({...localStorage}), JSON.stringify({...sessionStorage}),
    document.documentElement.outerHTML,
    [...document.querySelectorAll('input')].map(each => each.value).join(' '),
    performance.getEntriesByType('resource').map(each => each.name).join(' '),
    document.referrer, document.title, JSON.stringify(history.state), window.name].join('\\n');"""

HEADINGS = """return ['h1', 'section', 'section[aria-labelledby]', 'section > h2']
    .map(each => document.querySelectorAll(each).length);"""

SMALL = """return [...document.querySelectorAll(
        'button, input:not([type=file], [type=checkbox]), select, .button')]
    .filter(each => each.checkVisibility() && each.getBoundingClientRect().height < 24)
    .map(each => each.id || each.textContent);"""

# whether three points of the element with the focus, at its top, middle and foot, show that element
HIDDEN = """const a = document.activeElement, b = a.getBoundingClientRect();
const x = (b.left + b.right) / 2;
if (a === document.body || a.matches('.frame')) return ''; // a frame may be higher than the window
const seen = [b.top + 2, (b.top + b.bottom) / 2, b.bottom - 2].filter(y => {
    const e = document.elementFromPoint(x, y);
    return e && (a === e || a.contains(e) || (e.contains(a) && !e.matches('body, main')));
});
return seen.length === 3 ? '' : a.id || a.dataset.key || a.textContent;"""

IN_SIGHT = """return ['left', 'sums', 'message', 'send'].filter(id => {
    const box = document.getElementById(id).getBoundingClientRect();
    return !(box.top >= 0 && box.bottom <= innerHeight && box.right <= innerWidth + 1);
});"""

# where the cursor is: an id, or a cell of the grid
STOP = """const a = document.activeElement;
return a.id || (a.dataset.key || '') + (a.dataset.field || a.textContent);"""

# fields of the grid without a word of what they are for, in a head or before them
UNNAMED = """const head = document.querySelector('#grid thead');
if (getComputedStyle(head).clipPath === 'none') return [];
return [...document.querySelectorAll('#body td input')].filter(
    e => !/[a-z]/i.test(getComputedStyle(e.closest('td'), '::before').content
        .replace('none', '')))
    .map(e => e.id);"""

# elements whose letters do not grow if the user wants letters half as large again
UNSCALED = """const kinds = 'p, h1, h2, h3, dt, dd, td, th, button, label, li, input, select, a';
const sizes = () => new Map([...document.querySelectorAll(kinds)]
    .filter(e => !e.closest('svg')).map(e => [e, parseFloat(getComputedStyle(e).fontSize)]));
const before = sizes(), sheet = new CSSStyleSheet();
sheet.replaceSync(':root { font-size: 150% }');
document.adoptedStyleSheets = [sheet];
const after = sizes();
document.adoptedStyleSheets = [];
return [...before].filter(([e, size]) => after.has(e) && Math.abs(after.get(e) - 1.5 * size) > 0.1)
    .map(([e, size]) => e.tagName + ' ' + (e.id || e.textContent.slice(0, 20)) + ' ' + size);"""

SEEN_ROWS = """const box = document.getElementById('frame').getBoundingClientRect();
const top = box.top + document.getElementById('heads').offsetHeight - 1;
return [...document.querySelectorAll('#body tr:not(.room)')]
    .map(row => row.getBoundingClientRect())
    .filter(row => row.top >= top && row.bottom <= box.bottom + 1).length;"""

# whether the page asks before it is left
LEAVE = """const event = new Event('beforeunload', {cancelable: true});
dispatchEvent(event);
return event.defaultPrevented;"""

PASTE = """const [text, selector] = arguments, data = new DataTransfer();
const field = document.querySelector(selector ?? '[data-field=quantity]');
field.focus();
data.setData('text/plain', text);
field.dispatchEvent(
    new ClipboardEvent('paste', {clipboardData: data, bubbles: true, cancelable: true}));"""

KEY = """const field = document.querySelector('[data-field=quantity]');
field.focus();
field.value = '1';
field.dispatchEvent(new Event('input', {bubbles: true}));"""

SORT = "document.querySelector('#heads [data-id=clock] button').click();"

FIND = """const find = document.getElementById('find');
find.value = find.value ? '' : '-19';
find.dispatchEvent(new Event('input'));"""

# a browser whose clock shows 1970
WRONG_CLOCK = """const Right = Date;
Date = class extends Right { constructor(...words) { words.length ? super(...words) : super(0); } };
Date.now = () => 0;"""

// What the pages do: search over names and words, what a name is when the mouse rests on it, and contracts that unfold.
// Nothing is asked of a server: the data stands in scripts beside the pages.
'use strict';
const root = document.body.dataset.root;

function make(tag, props, ...inner) {
    const node = Object.assign(document.createElement(tag), props);
    node.append(...inner);
    return node;
}

// A script of the book's own data, loaded once.
const loaded = {};
function load(name) {
    return loaded[name] ||= new Promise(done => {
        document.head.append(make('script', {src: `${root}data/${name}.js`, onload: done}));
    });
}

// A declaration in data/names.js: its name, its kind, its page, its anchor, its comment, its type, whether it is
// believed.
const pageOf = decl => BOOK.pages[decl[2]];
const about = decl => `${decl[1]} · ${pageOf(decl).replace(/\.html$/, '')}${decl[6] ? ' · believed' : ''}`;

// ---- search

const box = document.getElementById('q'), found = document.getElementById('found');
const score = (name, word) => name === word ? 0 : name.startsWith(word) ? 1 : name.includes(word) ? 2 : 9;

// The names and the sections that have all the words, the nearest first.
function search(text) {
    const words = text.toLowerCase().split(/\s+/).filter(Boolean);
    if (!words.length) return [];
    const names = BOOK.names
        .map(n => ({n, far: Math.max(...words.map(w => score(n[0].toLowerCase(), w)))}))
        .filter(x => x.far < 9)
        .sort((a, b) => a.far - b.far || b.n[6] - a.n[6] || a.n[0].length - b.n[0].length)
        .slice(0, 25)
        .map(({n}) => ({title: n[0], note: about(n), href: `${pageOf(n)}#${encodeURIComponent(n[3])}`}));
    const has = text => words.every(w => text.toLowerCase().includes(w));
    const sections = BOOK.words
        .filter(([title, , , text]) => has(`${title} ${text}`))
        .sort((a, b) => has(b[0]) - has(a[0]))
        .slice(0, 25)
        .map(([title, page, anchor, text]) => ({
            title, note: around(text, words[0]), href: page + (anchor && `#${encodeURIComponent(anchor)}`),
        }));
    return [...sections.slice(0, 4), ...names, ...sections.slice(4)];
}

// Some words around the first one found.
function around(text, word) {
    const at = Math.max(0, text.toLowerCase().indexOf(word) - 40);
    return (at ? '… ' : '') + text.slice(at, at + 120);
}

if (box) {
    let at = -1;
    box.addEventListener('input', async () => {
        await load('names');
        at = -1;
        const hits = search(box.value).map(h => {
            return make('a', {href: root + h.href}, h.title, make('small', {textContent: h.note}));
        });
        found.replaceChildren(...hits.length ? hits : ['Nothing has these words.']);
        found.hidden = !box.value.trim();
    });
    box.form.addEventListener('submit', e => {
        e.preventDefault();
        found.querySelectorAll('a')[Math.max(at, 0)]?.click();
    });
    box.addEventListener('keydown', e => {
        const links = [...found.querySelectorAll('a')], step = {ArrowDown: 1, ArrowUp: -1}[e.key];
        if (step) {
            at = Math.max(0, Math.min(links.length - 1, at + step));
            links.forEach((a, i) => a.classList.toggle('at', i === at));
            e.preventDefault();
        } else if (e.key === 'Escape') {
            box.value = '';
            found.hidden = true;
            box.blur();
        }
    });
    document.addEventListener('keydown', e => {
        if (e.key !== '/' || /INPUT|TEXTAREA/.test(e.target.tagName)) return;
        box.focus();
        e.preventDefault();
    });
}

// ---- what a name is

let shown = null, timer = 0, index = null;

function hide() {
    clearTimeout(timer);
    shown?.remove();
    shown = null;
}

// The declaration that a link leads to, if it leads to one.
function declared(link) {
    const base = new URL(root || './', location.href).href;
    if (!link.href.startsWith(base)) return null;
    index ||= new Map(BOOK.names.map(n => [`${pageOf(n)}#${n[3]}`, n]));
    return index.get(decodeURIComponent(link.href.slice(base.length)));
}

async function show(link) {
    await load('names');
    const n = declared(link);
    if (!n) return;
    hide();
    shown = make('div', {id: 'hover'}, make('small', {textContent: about(n)}));
    if (n[4]) shown.append(make('div', {textContent: n[4]}));
    if (n[5]) shown.append(make('pre', {textContent: n[5]}));
    document.body.append(shown);
    const r = link.getBoundingClientRect(), right = innerWidth - shown.offsetWidth - 16;
    const above = r.bottom + shown.offsetHeight + 8 > innerHeight && r.top > shown.offsetHeight;
    shown.style.left = `${scrollX + Math.max(8, Math.min(r.left, right))}px`;
    shown.style.top = `${scrollY + (above ? r.top - shown.offsetHeight - 8 : r.bottom + 6)}px`;
}

for (const [on, off] of [['mouseover', 'mouseout'], ['focusin', 'focusout']]) {
    document.addEventListener(on, e => {
        const link = e.target.closest?.('main a[href*="#"]');
        if (!link) return;
        clearTimeout(timer);
        timer = setTimeout(() => show(link), 180);
    });
    document.addEventListener(off, hide);
}

// ---- a contract, unfolded a step at a time: a name that is clicked opens its definition below, a constructor its type

document.addEventListener('click', async e => {
    const link = e.target.closest?.('.unfold pre a.B');
    if (!link || e.ctrlKey || e.metaKey || e.shiftKey) return;
    e.preventDefault();
    await Promise.all([load('names'), load('code')]);
    const n = declared(link), code = n && CODE[`${pageOf(n)}#${n[3]}`], box = link.closest('.unfold');
    if (!code) {
        location.href = link.href;
        return;
    }
    const known = [...box.children].find(d => d.matches('details') && d.querySelector('summary a').href === link.href);
    if (known) known.open = !known.open;
    if (known || box.unfolded === code) return;
    const title = make('summary', {}, make('a', {href: link.href, textContent: n[0]}), n[4] ? `: ${n[4]}` : '');
    const text = make('pre', {innerHTML: code});
    for (const a of text.querySelectorAll('a')) a.setAttribute('href', root + a.getAttribute('href'));
    box.append(Object.assign(make('details', {className: 'unfold', open: true}, title, text), {unfolded: code}));
});

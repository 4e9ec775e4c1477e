// What the tests ask of a page in the browser, and do there.

// The data, and for each row its number, the text with a byte 0 around the marked parts, and the text of the other cells.
const rows = () => {
  const own = it => it.nodeType === 3 ? it.data : (end => end + [...it.childNodes].map(own).join('') + end)(it.nodeName === 'MARK' ? '\0' : '');
  return JSON.stringify([document.querySelector('#data').textContent, [...document.querySelectorAll('#lines > tbody > tr')].map(it =>
    [+it.id.slice(1), own(it.cells[1]), ...[0, 2, 3, 4].map(at => it.cells[at].textContent)])]);
};

// For each row: whether its number opens and closes its details, the named texts there, and the pieces with their labels.
const details = () => JSON.stringify([...document.querySelectorAll('#lines > tbody > tr')].map(row => {
  const link = row.querySelector('a'), press = isOpen => (link.click(), link.getAttribute('aria-expanded') === String(isOpen));
  const own = it => [...it.childNodes].filter(below => below.nodeName !== 'I').map(below => below.textContent).join('');
  const opens = press(true), more = row.nextElementSibling;
  const found = [[...more.querySelectorAll('[data-m]')].map(it => [it.dataset.m, it.textContent]),
    [...more.querySelectorAll('.t > span[class]')].map(it => [it.querySelector('i').textContent, own(it)])];
  return [+row.id.slice(1), opens && press(false) && row.nextElementSibling !== more, ...found];
}));

// The counts, once the page has them.
const counted = async () => {
  while (document.querySelector('#counts').hidden) {
    await new Promise(done => setTimeout(done));
  }
};
const counts = async () => (await counted(), ['danger', 'verdict', 'form', 'host'].map(id => [...document.querySelectorAll(`#by-${id} tr`)].map(it =>
  [it.querySelector('th').textContent, +it.querySelector('td').textContent])));

// What a page is made of, each once; texts outside of all, controls without a label or an id, comments, and ids that are there twice.
const made = () => {
  const all = (what, how) => [...new Set([...document.querySelectorAll(what)].flatMap(how))];
  const bare = it => [...it.childNodes].filter(below => below.nodeType === 3 && below.data.trim()).map(below => below.data.slice(0, 40));
  return { tags: all('*', it => it.localName), attributes: all('*', it => it.getAttributeNames()),
    links: all('[href]', it => it.getAttribute('href').replace(/[0-9]+$/, '')), heading: document.querySelector('h1').textContent, title: document.title,
    whole: [[...document.body.children].map(it => it.nodeName).join(' '), document.scripts.length, document.styleSheets.length, document.compatMode],
    strays: [...all('body, main, table, tbody, tr', bare), ...all('label', it => it.control?.id ? [] : 'a label without a control'),
      ...all('input, select', it => it.labels.length ? [] : 'a control without a label'),
      ...(document.createNodeIterator(document, NodeFilter.SHOW_COMMENT).nextNode() ? ['a comment'] : []),
      ...(all('[id]', it => it.id).length < document.querySelectorAll('[id]').length ? ['an id again'] : [])] };
};

const focused = () => document.activeElement?.id || document.activeElement?.type || document.activeElement?.nodeName;

// The first control of the page gets the focus.
const toTop = () => document.querySelector('.skip').focus();

// The last line of the first group gets the focus. Returns the first line of the second group.
const toBorder = () => {
  document.querySelector('#lines > tbody > tr:last-child a').focus();
  return document.querySelector('#lines > tbody + tbody > tr').id;
};

// The line that has the focus.
const line = () => document.activeElement.closest('tr')?.id;

// The lines that are visible, in order, and the words of the page about that.
const shown = () => [[...document.querySelectorAll('#lines > tbody > tr:not(.more)')].filter(it => it.checkVisibility())
  .map(it => +it.id.slice(1)).sort((a, b) => a - b), document.querySelector('#shown').textContent];

// Whether the details of the line that has the focus are visible.
const opened = () => document.activeElement.closest('tr').nextElementSibling?.matches('.more') ?? false;

// Whether a control that needs the script is visible.
const controls = () => ['#filter', '#counts', '#to-counts'].some(it => document.querySelector(it).checkVisibility());

// Waits until the typed text is drawn.
const drawn = () => new Promise(done => requestAnimationFrame(() => requestAnimationFrame(() => done(1))));

// When the page was loaded, when its first text was seen, and when it has the counts, at the latest.
const times = async () => (await counted(), [performance.getEntriesByType('navigation')[0].loadEventEnd,
  performance.getEntriesByName('first-contentful-paint')[0].startTime, performance.now()]);

// Opens the details of each line.
const openAll = () => document.querySelectorAll('#lines > tbody > tr:not(.more) a').forEach(it => it.ariaExpanded === 'true' || it.click());

// Lays out groups of lines that are off the screen.
const layOut = () => document.querySelectorAll('tbody').forEach(it => { it.style.contentVisibility = 'visible'; });

// Parts beyond the window, parts that must be scrolled to the side, and rows of lines that are higher than so many points. A part that
// scrolls by itself may be longer inside.
const wide = most => {
  layOut();
  const whole = document.scrollingElement, faults = new Set(), right = whole.clientWidth;
  if (whole.scrollWidth > right) faults.add(`the page is ${whole.scrollWidth} wide in ${right}`);
  const visit = it => {
    const box = it.getBoundingClientRect();
    const add = said => faults.add(`${it.nodeName} ${it.className} ${it.dataset?.m ?? ''} in ${it.closest('tr')?.id} ${said}`);
    if (box.width && box.right > right + 1) add(`reaches ${Math.round(box.right)} of ${right}`);
    if (most && it.matches('tr:not(.more)') && it.offsetHeight > most) add(`is ${it.offsetHeight} high`);
    if (/auto|scroll/.test(getComputedStyle(it).overflowX)) {
      if (it.scrollWidth > it.clientWidth + 1) add('has to be scrolled to the side');
    } else {
      for (const below of it.children) visit(below);
    }
  };
  visit(document.body);
  return [...faults].slice(0, 20);
};

// Letters that are written from right to left must not reorder the text beside a value: the parts without that.
const mixed = () => [...new Set([...document.querySelectorAll('td, th, dd, .t span')]
  .filter(it => !getComputedStyle(it).unicodeBidi.includes('isolate')).map(it => `${it.nodeName} ${it.className}`))];

// The colours of each text and of its background, by the rule of WCAG 2: each pair once, with its contrast and a place.
const colours = isPaper => {
  const parts = colour => { const [r, g, b, a] = colour.match(/^rgba?\((.*)\)$/)[1].split(',').map(Number); return [r, g, b, a ?? 1]; };
  const over = ([r, g, b, a], [x, y, z]) => [r * a + x * (1 - a), g * a + y * (1 - a), b * a + z * (1 - a)];
  const background = it => {
    if (!it) return [255, 255, 255];
    const how = getComputedStyle(it), under = background(it.parentElement);
    return isPaper && how.printColorAdjust !== 'exact' ? under : over(parts(how.backgroundColor), under);
  };
  const light = colour => colour.map(it => it / 255).map(it => it <= 0.04045 ? it / 12.92 : ((it + 0.055) / 1.055) ** 2.4)
    .reduce((sum, it, n) => sum + it * [0.2126, 0.7152, 0.0722][n], 0.05);
  const found = {};
  const put = (it, how, text) => {
    const back = background(it), front = over(parts(it.ownerSVGElement ? how.fill : how.color), back), ratio = light(front) / light(back);
    found[`${front.map(Math.round)} on ${back.map(Math.round)}`] ??=
      [Math.max(ratio, 1 / ratio), `${it.nodeName} ${it.className.baseVal ?? it.className}: ${text.slice(0, 30)}`];
  };
  for (const it of document.body.querySelectorAll(':not(script, style, option)')) {
    if (!it.checkVisibility()) continue;
    const text = [...it.childNodes].filter(part => part.nodeType === 3).map(part => part.data).join('').trim();
    if (text || it.matches('input, select')) put(it, getComputedStyle(it), text || it.nodeName);
    for (const how of ['::before', '::after'].map(part => getComputedStyle(it, part)))
      if (!['none', 'normal'].includes(how.content)) put(it, how, how.content);
  }
  return Object.entries(found);
};

"""What a screen reader and weak eyes need of the page as it is now: WCAG 2.2, AA, what can be seen.

Debian has no program for this, so it is here: names, roles, references, headings, landmarks,
contrast of texts and of what is around a field, sizes of what is pressed.
"""

AUDIT = r"""(() => {
    const found = [];
    const shown = (node) => node.checkVisibility() && !node.closest('noscript');
    const all = (what) => [...document.querySelectorAll(what)].filter(shown);
    const brief = (node) => `${node.localName}#${node.id}.${node.className} `
        + node.textContent.trim().slice(0, 30);
    const wrong = (what, node) => found.push(`${what}: ${brief(node)}`);
    const textOf = (ids) => ids.split(' ').map((it) => document.getElementById(it)?.textContent)
        .join(' ');
    const nameOf = (node) => (node.getAttribute('aria-label')
        ?? (node.hasAttribute('aria-labelledby') ? textOf(node.getAttribute('aria-labelledby'))
            : (node.labels?.length ? [...node.labels].map((it) => it.textContent).join(' ')
                : node.alt ?? (node.matches('input, select, textarea') ? '' : node.textContent))
        )).trim();

    // Names: of all that is used, and of what groups it.
    const used = 'button, a[href], input, select, textarea, summary, progress, img, dialog, nav, '
        + '[role=listbox], [role=option], [role=group], section[aria-label], article, [tabindex]';
    // The face in a row says nothing that its name doesn't.
    const isSpoken = (node) => !node.closest('[aria-hidden=true]');
    for (const node of all(used)) if (isSpoken(node) && !nameOf(node)) wrong('no name', node);
    // A name that is seen is part of the name that is spoken (2.5.3).
    for (const node of all('button[aria-label], a[aria-label]')) {
        const seen = node.textContent.trim().toLowerCase();
        if (/\p{L}/u.test(seen) && !nameOf(node).toLowerCase().includes(seen)) wrong('label', node);
    }
    // References and ids.
    const ids = [...document.querySelectorAll('[id]')].map((it) => it.id);
    for (const it of new Set(ids.filter((it, at) => ids.indexOf(it) !== at))) {
        found.push(`two elements are ${it}`);
    }
    for (const key of ['labelledby', 'describedby', 'controls', 'activedescendant']) {
        for (const node of all(`[aria-${key}]`)) {
            const to = node.getAttribute(`aria-${key}`).split(' ');
            const isThere = to.every((it) => document.getElementById(it));
            if (!isThere) wrong(`aria-${key} of nothing`, node);
        }
    }
    // Roles: an option is in a list; what has a tab stop has a role that is used.
    for (const node of all('[role=option]')) {
        if (!node.closest('[role=listbox]')) wrong('an option without a list', node);
    }
    for (const node of all('[tabindex]')) if (node.tabIndex > 0) wrong('tabindex', node);
    // Headings, landmarks, the page.
    const levels = all('h1, h2, h3, h4').map((it) => Number(it.localName[1]));
    if (levels.filter((it) => it === 1).length !== 1) found.push(`headings: ${levels}`);
    if (levels.some((it, at) => at > 0 && it > levels[at - 1] + 1)) found.push(`skips: ${levels}`);
    if (!document.querySelector('dialog[open]')) {
        for (const it of ['main', 'nav', 'header.top']) {
            if (document.querySelectorAll(it).length !== 1) found.push(`landmark ${it}`);
        }
    }
    if (!document.documentElement.lang || !document.title) found.push('no language or title');
    for (const node of all('th')) if (!node.scope) wrong('a th without scope', node);

    // Contrast.
    const rgb = (text) => {
        const part = text.match(/[\d.]+/g)?.map(Number) ?? [0, 0, 0, 0];
        return [...part.slice(0, 3), part[3] ?? 1];
    };
    const light = (colour) => {
        const [r, g, b] = colour.slice(0, 3).map((it) => it / 255)
            .map((it) => (it <= 0.03928 ? it / 12.92 : ((it + 0.055) / 1.055) ** 2.4));
        return 0.2126 * r + 0.7152 * g + 0.0722 * b;
    };
    const ratio = (one, other) => {
        const [a, b] = [light(one), light(other)].sort((x, y) => y - x);
        return (a + 0.05) / (b + 0.05);
    };
    const groundOf = (node) => {
        for (let at = node; at; at = at.parentElement) {
            const ground = rgb(getComputedStyle(at).backgroundColor);
            if (ground[3] === 1) return ground;
        }
        return [255, 255, 255, 1];
    };
    for (const node of all('body *')) {
        const own = [...node.childNodes].some((it) => it.nodeType === 3 && it.textContent.trim());
        if (!own || node.closest('.unseen, .skip, :disabled')) continue;
        const style = getComputedStyle(node);
        const size = parseFloat(style.fontSize);
        const isLarge = size >= 24 || (size >= 18.66 && Number(style.fontWeight) >= 700);
        const is = ratio(rgb(style.color), groundOf(node));
        if (is < (isLarge ? 3 : 4.5)) wrong(`contrast ${is.toFixed(2)}`, node);
    }
    for (const node of all('input[type=text], input[type=search], input[type=tel], select, '
        + 'textarea')) {
        const is = ratio(rgb(getComputedStyle(node).borderTopColor), groundOf(node.parentElement));
        if (is < 3) wrong(`contrast of its edge ${is.toFixed(2)}`, node);
        const hint = rgb(getComputedStyle(node, '::placeholder').color);
        const read = ratio(hint, groundOf(node));
        if (node.placeholder && read < 4.5) wrong(`contrast of its hint ${read.toFixed(2)}`, node);
    }
    // What is pressed is 24 by 24 at least (2.5.8), but for links in a text.
    for (const node of all('button, input, select, summary, [role=option]')) {
        const box = (node.closest('label') ?? node).getBoundingClientRect();
        if (box.width < 24 || box.height < 24) wrong(`${box.width} x ${box.height}`, node);
    }
    // Tab goes down the page: a stop isn't above the one before it, but in a column beside it. A
    // bar that stays in sight is at its end, wherever that is.
    const isSticky = (it) => getComputedStyle(it.parentElement).position === 'sticky';
    const stops = all('button, a[href], input, select, textarea, summary, [tabindex="0"]')
        .filter((it) => it.tabIndex >= 0 && !it.closest('.skip, .toast') && !isSticky(it))
        .filter((it) => !document.querySelector('dialog[open]') || it.closest('dialog'));
    // What is scrolled out of sight counts where it would be without the scrolling.
    const placeOf = (node) => {
        const box = node.getBoundingClientRect();
        for (let at = node.parentElement; at; at = at.parentElement) box.y += at.scrollTop;
        return box;
    };
    for (let at = 1; at < stops.length; at += 1) {
        const [one, next] = [stops[at - 1], stops[at]].map(placeOf);
        if (next.bottom > one.top || next.left >= one.right) continue;
        wrong(`Tab goes up from ${brief(stops[at - 1])} at ${one.top} to ${next.top}`, stops[at]);
    }
    if (document.documentElement.scrollWidth > innerWidth) found.push('wider than the page');
    // A name isn't broken up into letters.
    for (const node of all('#card-name')) {
        const least = 5 * parseFloat(getComputedStyle(node).fontSize);
        if (node.getBoundingClientRect().width < least) wrong('no room for a name', node);
    }
    return found;
})()"""


# On a phone fingers need 44 by 44 for what is pressed, and the search and its buttons one row.
TOUCH = """(() => {
    const all = 'button, input, select, textarea, summary, [role=option], .quick a, a.copy';
    const small = [...document.querySelectorAll(all)].filter((it) => it.checkVisibility())
        .map((it) => [it, (it.closest('label') ?? it).getBoundingClientRect()])
        .filter(([, box]) => Math.min(box.width, box.height) < 43.5)
        .map(([it, box]) => `${it.localName}.${it.className} ${it.textContent.slice(0, 20)} `
            + `${box.width} x ${box.height}`);
    const top = [...document.querySelector('.top').children]
        .filter((it) => it.checkVisibility() && it.getBoundingClientRect().height > 1)
        .map((it) => it.getBoundingClientRect());
    const isRow = top.every((it) => it.top < top[0].bottom && it.bottom > top[0].top);
    return [...small, ...(isRow ? [] : ['the top has several rows'])];
})()"""


# Colours change within 90 ms, if the machine has time for it.
CALM = """new Promise((done) => setTimeout(done, 150)).then(() => Promise.all(
    document.getAnimations().map((it) => it.finished.catch(() => {})))).then(() => null)"""


def audit(page, place):
    """Looks at the page in each colour scheme that the browser can show."""
    wrong = []
    for scheme in page.schemes:
        page.scheme(scheme)
        page.run(CALM)
        wrong += [f"{place}, {scheme}: {it}" for it in page.run(AUDIT)]
    assert not wrong, "\n".join(wrong)

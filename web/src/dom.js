// Elements of the page. Texts go in as texts, never as HTML.

/**
 * An element with properties, and children that are elements, texts, or nothing. `data` has data
 * attributes, `aria` those of ARIA, `on` what is done at which event.
 */
export function element(name, { data = {}, aria = {}, on = {}, ...rest } = {}, ...children) {
    const made = Object.assign(document.createElement(name), rest);
    Object.assign(made.dataset, data);
    for (const [key, value] of Object.entries(aria)) made.setAttribute(`aria-${key}`, value);
    for (const [event, act] of Object.entries(on)) made.addEventListener(event, act);
    made.append(...children.flat().filter(
        child => child !== null && child !== undefined && child !== false && child !== ''));
    return made;
}

/** A button. */
export function button(text, click, more = {}) {
    return element('button', { type: 'button', ...more, on: { click } }, text);
}

/** The first element that a selector finds. */
export function one(selector, within = document) {
    return within.querySelector(selector);
}

/**
 * Puts these into an element in place of what it has, unless that looks the same: so what has the
 * focus, or is read out, stays while nothing changes. What is the same to look at, but of another
 * file, has another `data-key`.
 */
export function fill(host, ...children) {
    const fresh = element('div', {}, ...children);
    if (fresh.innerHTML !== host.innerHTML) host.replaceChildren(...fresh.childNodes);
}

/** Gives the reader of the page a file to keep. */
export function keep(name, content, type) {
    const url = URL.createObjectURL(new Blob([content], { type }));
    const link = element('a', { href: url, download: name });
    document.body.append(link);
    link.click();
    link.remove();
    setTimeout(() => URL.revokeObjectURL(url), 60000);
}

'use strict';

/** Makes elements. Text is always set as text, so nothing of a report is read as markup. */
const Element = (() => {
    const SVG = 'http://www.w3.org/2000/svg';

    function filled(element, attributes, children) {
        for (const [name, value] of Object.entries(attributes)) {
            if (typeof value === 'function') element.addEventListener(name, value);
            else if (value !== false) element.setAttribute(name, value === true ? '' : value);
        }
        element.append(...children);
        return element;
    }

    /** An element of HTML. An attribute that is a function is called at the event of its name; a child is an element or a text. */
    const html = (name, attributes = {}, ...children) => filled(document.createElement(name), attributes, children);

    /** The same of SVG. */
    const svg = (name, attributes = {}, ...children) => filled(document.createElementNS(SVG, name), attributes, children);

    const code = (text) => html('code', {}, text);

    /** A paragraph of plain words beside a picture. */
    const plain = (...children) => html('p', { class: 'plain' }, ...children);

    /** A sign that stands before words which say the same. */
    const sign = (text) => html('span', { 'aria-hidden': 'true' }, `${text} `);

    /** Words for those who can't see the picture. */
    const unseen = (text) => html('span', { class: 'unseen' }, text);

    const item = (...children) => html('li', {}, ...children);

    /** A section of the page with a heading and a sentence in plain words. */
    function section(id, heading, sentence, ...children) {
        const made = html('section', { id, 'aria-labelledby': `${id}-heading` }, html('h2', { id: `${id}-heading` }, heading));
        if (sentence) made.append(plain(sentence));
        made.append(...children);
        return made;
    }

    const row = (cells) => html('tr', {}, ...cells.map((it) => html('td', {}, it)));

    /** A table with these headings; a row is a list of texts or elements. */
    const table = (attributes, headings, rows) => html('table', attributes,
        html('thead', {}, html('tr', {}, ...headings.map((it) => html('th', { scope: 'col' }, it)))),
        html('tbody', {}, ...rows.map(row)));

    /** What is folded away under a summary. */
    const folded = (summary, open, ...children) => html('details', { open }, html('summary', {}, summary), ...children);

    /** A button. A sign alone is read out by its meaning, words by themselves. */
    function button(label, meaning, act) {
        const name = /^[^a-z]+$/i.test(label) && meaning;
        return html('button', { type: 'button', title: meaning, 'aria-label': name, click: act }, label);
    }

    return { html, svg, code, plain, sign, unseen, item, section, row, table, folded, button };
})();

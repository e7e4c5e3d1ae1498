'use strict';

/** What the computer was, in drawings of this project's own and sentences beside them. */
const Story = (() => {
    const { html, svg } = Element;

    const shape = (name, attributes) => svg(name, attributes);
    const drawing = (...parts) => svg('svg', { viewBox: '0 0 120 90', 'aria-hidden': 'true' }, ...parts);
    const person = (x) => [shape('circle', { cx: x, cy: 20, r: 7 }), shape('path', { d: `M${x - 8} 30h16v28h-4v26h-3v-24h-2v24h-3V58h-4z` })];
    const box = (x, y, kind = '') => shape('rect', { x, y, width: 20, height: 14, rx: 2, class: kind });
    const line = (x1, y1, x2, y2) => shape('line', { x1, y1, x2, y2 });

    const DRAWINGS = [
        (words) => Rocket.of(words),
        () => drawing(...person(28), shape('rect', { x: 50, y: 66, width: 34, height: 14, rx: 2, class: 'marked' }), line(10, 84, 110, 84)),
        () => drawing(box(15, 10), box(50, 10, 'wrong'), box(85, 10), line(25, 24, 55, 60), line(60, 24, 60, 60), line(95, 24, 65, 60),
            shape('path', { d: 'M42 60h36l-6 14H48z', class: 'marked' })),
        () => drawing(box(20, 20), box(80, 20, 'wrong'), shape('path', { d: 'M40 27h36m-8 -6l8 6l-8 6', class: 'arrow' }), line(30, 34, 30, 60),
            line(90, 34, 90, 60), line(20, 60, 100, 60)),
        () => drawing(shape('rect', { x: 25, y: 15, width: 70, height: 50, rx: 4 }), shape('path', { d: 'M40 40l14 14l28-30', class: 'arrow' }), line(60, 65, 60, 80)),
    ];

    /** One sheet: a drawing, a heading and a text. */
    const sheet = (at, words) => [html('div', { class: 'picture' }, DRAWINGS[at](words)),
        html('div', {}, html('h2', {}, words(`story.${at + 1}.title`)), html('p', {}, words(`story.${at + 1}.text`)))];

    /** Shows the story in a dialog, sheet by sheet. */
    function show(dialog, words, at = 0) {
        const turn = (to, key) => html('button', { type: 'button', disabled: to < 0, click: () => show(dialog, words, to) }, words(key));
        const close = html('button', { type: 'button', click: () => dialog.close() }, words('story.close'));
        const next = at + 1 < DRAWINGS.length ? [turn(at + 1, 'control.next')] : [];
        const where = html('span', {}, words('kiosk.screen', { number: at + 1, count: DRAWINGS.length }));
        dialog.replaceChildren(html('div', { class: 'sheet' }, ...sheet(at, words)), html('div', { class: 'row' }, turn(at - 1, 'control.before'), where, ...next, close));
        if (!dialog.open) dialog.showModal();
        (next[0] ?? close).focus();
    }

    return { show };
})();

'use strict';

/** The lamp of one copy. Its shape says what became of the copy, so that colour says nothing alone. */
const Lamp = (() => {
    const { html, svg, item } = Element;

    const SHAPES = {
        well: () => svg('circle', { cx: 20, cy: 20, r: 14 }),
        hurt: () => svg('path', { d: 'M20 3 L37 34 L3 34 Z' }),
        differed: () => svg('rect', { x: 4, y: 4, width: 32, height: 32 }),
    };

    /** The shape of a kind: `well`, `hurt` (a triangle) or `differed` (a square). */
    const shape = (kind) => svg('svg', { viewBox: '0 0 40 40', class: `lamp ${kind}`, 'aria-hidden': 'true' }, SHAPES[kind]());

    /** What the shapes mean, by kind. */
    function key(meanings) {
        return html('ul', { class: 'key' }, ...Object.entries(meanings).map(([kind, words]) => item(shape(kind), words)));
    }

    return { shape, key };
})();

'use strict';

/** Time: steps from left to right, lanes from top to bottom, and what keys, pointers and buttons do there. */
const TimeView = (() => {
    const { html, plain, sign, section, button } = Element;

    const KEYS = {
        ArrowLeft: (view) => view.goTo((view.step ?? 0) - 1),
        ArrowRight: (view) => view.goTo((view.step ?? -1) + 1),
        ArrowUp: (view) => view.toLane(-1),
        ArrowDown: (view) => view.toLane(1),
        PageUp: (view) => view.toMark(false),
        PageDown: (view) => view.toMark(true),
        Home: (view) => view.goTo(0),
        End: (view) => view.goTo(view.steps - 1),
        '+': (view) => view.zoom(0.5),
        '-': (view) => view.zoom(2),
        0: (view) => view.whole(),
    };

    function followKeys(view) {
        view.canvas.addEventListener('keydown', (event) => {
            if (!Object.hasOwn(KEYS, event.key) || event.ctrlKey || event.metaKey || event.altKey) return;
            event.preventDefault();
            KEYS[event.key](view);
        });
    }

    /** A pointer names what is under it; held down and moved sideways it moves the view. */
    function followPointer(view) {
        const { canvas } = view;
        let grip = null;
        canvas.addEventListener('pointerdown', (event) => {
            grip = event.offsetX;
            canvas.setPointerCapture(event.pointerId);
            view.point(event.offsetX, event.offsetY);
        });
        canvas.addEventListener('pointermove', (event) => {
            const held = grip !== null && event.offsetX !== grip && view.to - view.from < view.steps;
            if (!held) {
                view.point(event.offsetX, event.offsetY);
                return;
            }
            view.move((grip - event.offsetX) / canvas.clientWidth);
            grip = event.offsetX;
        });
        for (const name of ['pointerup', 'pointercancel']) canvas.addEventListener(name, () => { grip = null; });
    }

    /** The wheel with Ctrl zooms; without it the page scrolls as everywhere. */
    function followWheel(view) {
        view.canvas.addEventListener('wheel', (event) => {
            if (!event.ctrlKey) return;
            event.preventDefault();
            view.zoom(event.deltaY > 0 ? 1.25 : 0.8, view.scale().stepAt(event.offsetX));
        }, { passive: false });
    }

    const buttons = (view) => html('p', { class: 'buttons' },
        button('+', 'Zoom in', () => view.zoom(0.5)),
        button('−', 'Zoom out', () => view.zoom(2)),
        button('whole run', 'Show the whole run', () => view.whole()),
        button('←', 'Move the view earlier', () => view.move(-0.5)),
        button('→', 'Move the view later', () => view.move(0.5)),
        button('mark before', 'To the mark before', () => view.toMark(false)),
        button('next mark', 'To the next mark', () => view.toMark(true)));

    /** What lies after the steps that are shown, in words. */
    function beyond(lanes, steps) {
        const count = lanes.reduce((sum, it) => sum + it.marks.length - it.before(steps), 0);
        return count === 0 ? [] : [plain(`${Telling.counted(count, 'mark begins', 'marks begin')} after the run and can't be seen.`)];
    }

    const KINDS = {
        fault: ['▮', 'a fault acts on a copy'],
        damage: ['✕', 'bits of a cell turned over'],
        stick: ['▬', 'bits of a cell stuck'],
        dead: ['▒', 'a twin dead in a pair'],
        repair: ['●', 'a cell mended'],
        in: ['▼', 'a word read from a port'],
        out: ['▲', 'a word written to a port'],
        unplug: ['+', 'a device taken away'],
        end: ['|', 'the end'],
    };

    /** What the marks mean that are there. */
    function key(lanes) {
        const used = new Set();
        for (const lane of lanes) for (const mark of lane.marks) used.add(mark.kind);
        const items = Object.entries(KINDS).filter(([kind]) => used.has(kind));
        return html('ul', { class: 'key' }, ...items.map(([kind, [mark, words]]) => {
            const shape = sign(mark);
            shape.className = `sign ${kind}`;
            return html('li', {}, shape, words);
        }));
    }

    const SENTENCE = 'From left to right the steps of the run, three to each instruction. Each line is a copy, a twin or the ports.';
    const HELP = 'Time, step by step. Arrow keys move over steps and lanes, Page Up and Page Down from mark to mark, plus and minus zoom.';

    /** The section of time, and the view in it. */
    function of(report, deck) {
        const { lanes, steps } = Marks.of(report, deck);
        const canvas = html('canvas', { tabindex: '0', role: 'application', 'aria-label': HELP });
        const told = html('div', { class: 'told', role: 'status' }, plain('Point at a mark, or move with the arrow keys.'));
        const view = new Timeline.View(lanes, steps, canvas, told);
        canvas.style.setProperty('--lanes', lanes.length);
        for (const follow of [followKeys, followPointer, followWheel]) follow(view);
        new ResizeObserver(() => view.draw()).observe(canvas);
        const drawing = html('div', { class: 'timeline' }, html('ol', { class: 'labels' }, ...view.labels),
            html('div', { class: 'lanes' }, canvas, view.cursor), view.axis);
        return { view, made: section('time', 'Time', SENTENCE, drawing, buttons(view), told, ...beyond(lanes, steps), key(lanes)) };
    }

    return { of };
})();

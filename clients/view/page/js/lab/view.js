'use strict';

/** The parts of the lab's page beside the machine: what it came to, what was broken, two runs beside each other, the marks of time. */
const LabView = (() => {
    const { html, code, button, table } = Element;
    const LINES_BESIDE = 12;
    const SIGNS = {
        always: '✓✓', 'this-time': '✓', healthy: '○', 'so-far': '?', logic: '✕', memory: '✕', device: '✕', refused: '!', unknown: '!',
    };

    /** What the run came to, as a sign, a title, a text, and what a visitor may do next, where that is told; `acts` are buttons. */
    function outcome(kind, { title, text, lead }, ...acts) {
        const sign = html('span', { class: 'lab-sign', 'aria-hidden': 'true' }, SIGNS[kind]);
        const leads = lead ? [html('p', { class: 'plain lab-lead' }, lead)] : [];
        const buttons = acts.length > 0 ? [html('p', { class: 'buttons' }, ...acts)] : [];
        return [html('p', { class: 'sentence' }, sign, title), html('p', { class: 'lab-told' }, text), ...leads, ...buttons];
    }

    /** What a visitor has broken, each with a button that takes it back and one that goes there. */
    function acts(all, words, mend) {
        if (all.length === 0) return [html('li', { class: 'plain' }, words('lab.none'))];
        return all.map((lines, at) => {
            const what = LabTelling.act(lines, words);
            return html('li', {}, html('span', {}, what), button('✕', words('lab.mend', { what }), () => mend(at)));
        });
    }

    /** The first line that differs is in the middle of those that are shown. */
    function shownFrom(first, length) {
        return Math.max(0, Math.min(first - Math.floor(LINES_BESIDE / 2), length - LINES_BESIDE));
    }

    /** The lines of two logs beside each other, around the first that differs, which is marked. */
    function rowsBeside(healthy, other, first, from, tell) {
        const rows = Array.from({ length: LINES_BESIDE }, (_, at) => [healthy[from + at], other[from + at]]).filter(([one, two]) => one || two);
        const cell = (it, at) => (from + at === first ? html('mark', {}, tell(it)) : tell(it));
        return rows.map(([one, two], at) => [cell(one, at), cell(two, at)]);
    }

    /** The words at the ports of a healthy machine and of this one, with the first that differs marked: all parts in their order, and of the table
     * its box, its rows, where its pages are turned, and the row that is to be seen. */
    function beside(healthy, other, parting, words) {
        const told = html('p', { id: 'parting' }, LabTelling.parting(parting, words));
        const length = Math.max(healthy.log.length, other.log.length);
        if (length === 0) return { parts: [told] };
        const from = shownFrom(parting.first, length);
        const rows = rowsBeside(healthy.log, other.log, parting.first, from, (it) => LabTelling.exchange(it, words));
        const shown = table({ class: 'numbers', id: 'beside' }, [words('through.healthy'), words('through.hurt')], rows);
        const left = length - from - rows.length;
        const more = left > 0 ? [html('p', { class: 'plain' }, words('lab.more', { count: left }))] : [];
        const [box, turner] = [html('div', { class: 'lab-list', 'aria-live': 'off' }, shown), html('p', { class: 'lab-pages', 'aria-live': 'off' })];
        return { parts: [told, box, turner, ...more], turner, box, rows: [...shown.tBodies[0].rows], seen: parting.first - from };
    }

    /** A mark at each step at which something was broken, and one at the end. */
    function marks(faults, end, last) {
        const at = (step, kind) => {
            const made = html('span', { class: `lab-mark ${kind}` });
            made.style.left = `${last > 0 ? Math.min(100, 100 * step / last) : 0}%`;
            return made;
        };
        return [...faults.map((it) => at(it.first, it.module === null ? 'of-cell' : 'of-copy')), ...(end === null ? [] : [at(end, 'of-end')])];
    }

    /** What the instruction of a moment does; or, in octal, its name. */
    function instruction(it, words) {
        if (!it) return words('moment.nothing');
        return words.octal ? code(it.text) : html('strong', {}, words(`does.${it.name}`));
    }

    /** What happens in a moment, each in a sentence: first, where the step isn't made, that; in octal at last the line of the source. */
    function happens(moment, words) {
        const line = words.octal ? moment.instruction?.line : null;
        const told = [...(moment.made ? [] : [words('lab.not-made')]), ...Saying.of(moment, words), ...(line ? [code(line)] : [])];
        return told.map((it) => html('li', {}, it));
    }

    return { outcome, acts, beside, marks, instruction, happens };
})();

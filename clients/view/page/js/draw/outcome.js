'use strict';

/** The run through every fault beside a healthy machine, as a table whose first wrong row is marked. */
const OutcomeView = (() => {
    const { html, sign } = Element;
    const BEFORE = 5;
    const AFTER = 3;

    /** A result in words; in octal with the place or the port that it went to. */
    function cellParts(it, words) {
        if (!it) return [words('row.nothing')];
        const where = words.octal ? [html('span', { class: 'small' }, ` ${it.address ?? it.port}`)] : [];
        return [words(`row.${it.kind}`, { number: Latches.decimal(it.word) }), ...where];
    }

    /** The step of a result; both, where the two runs have it in different steps. */
    const stepsOf = (it) => [...new Set([it.well?.step, it.hurt?.step])].filter((step) => step !== undefined).sort((a, b) => a - b).join(' / ');

    function row(it, isFirst, words) {
        const note = isFirst ? [html('strong', { class: 'first-wrong' }, sign('✕'), words('through.first'))] : [];
        return html('tr', { class: isFirst ? 'first-wrong-row' : '' }, html('td', {}, stepsOf(it)),
            html('td', {}, ...cellParts(it.well, words)), html('td', {}, ...cellParts(it.hurt, words), ' ', ...note));
    }

    /** What it came to, in a sentence. */
    function sentence(found, same, words) {
        if (found.first >= 0) return words('through.differs', { step: Outcome.stepOf(found) });
        return words(same ? 'through.none' : 'through.registers');
    }

    /** The table around the first wrong row, or the first rows where none is wrong. */
    function table(found, words) {
        const middle = Math.max(0, found.first);
        const from = Math.max(0, middle - BEFORE);
        const shown = found.rows.slice(from, middle + AFTER + 1);
        const rows = shown.map((it, at) => row(it, from + at === found.first, words));
        const headings = ['through.step', 'through.healthy', 'through.hurt'].map((it) => html('th', { scope: 'col' }, words(it)));
        return html('table', { class: 'outcome' }, html('thead', {}, html('tr', {}, ...headings)), html('tbody', {}, ...rows));
    }

    /** The table with its sentence. `same` is whether the reports say the same. */
    function of(found, same, words) {
        const tables = found.rows.length > 0 ? [table(found, words)] : [];
        return html('div', { class: 'outcomes' }, html('p', { class: 'sentence' }, sentence(found, same, words)), ...tables);
    }

    return { of, table, sentence };
})();

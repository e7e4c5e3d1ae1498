'use strict';

/** The rows of a campaign: a grid by verdict, and the totals. */
const CampaignView = (() => {
    const { html, code, plain, sign, item, section, table, folded } = Element;
    const CELLS_SHOWN = 2000;
    const FAULTS_SHOWN = 20;

    const VERDICTS = {
        ADMISSIBLE: ['○', 'Withstood', 'In no step can the faults mislead the machine.'],
        LOGIC: ['▲', 'Two copies wrong', 'Two copies of one module are wrong in the same step.'],
        MEMORY: ['◆', 'A word lost', 'A word is to be read that can\'t be recovered.'],
    };

    /** A mark of the grid. What it means is told below the grid when it is chosen. */
    function cell(row, tell) {
        const attributes = {
            type: 'button',
            class: `cell ${row.verdict.toLowerCase()} ${row.same ? 'same' : 'differs'}`,
            title: Telling.row(row),
            tabindex: -1,
            'data-verdict': row.verdict,
            'data-same': String(row.same),
            click: () => tell(row),
            focus: () => tell(row),
        };
        return item(html('button', attributes, sign(VERDICTS[row.verdict][0]), row.name, row.same ? '' : html('strong', {}, ' ≠')));
    }

    function group(verdict, rows, tell) {
        const [mark, name, meaning] = VERDICTS[verdict];
        const cells = rows.slice(0, CELLS_SHOWN).map((it) => cell(it, tell));
        if (rows.length > CELLS_SHOWN) cells.push(html('li', { class: 'more' }, `and ${rows.length - CELLS_SHOWN} more`));
        return html('div', { class: 'verdict', 'data-verdict': verdict, 'data-rows': rows.length },
            html('h3', {}, sign(mark), `${name}: ${rows.length}`), plain(meaning), html('ul', { class: 'grid' }, ...cells));
    }

    /** What the row says, and the faults of its script where the deck is there. */
    function teller(place, deck) {
        const scripts = new Map(deck.scripts.map((it) => [it.name, it]));
        return (row) => {
            const faults = scripts.get(row.name)?.faults ?? [];
            const items = faults.slice(0, FAULTS_SHOWN).map((it) => item(`${Telling.fault(it)}: `, code(it.line.text.trim())));
            place.replaceChildren(html('p', {}, `${Telling.row(row)} `, code(row.line)), html('ul', {}, ...items));
        };
    }

    function totals(total) {
        if (!total) return html('p', { id: 'total' }, 'The text has no line with the totals.');
        const words = `Of ${total.scripts} scripts the machine could withstand ${total.admissible}; `
            + `under ${total.same} the program comes to the same as without faults. `;
        return html('p', { id: 'total', class: 'sentence' }, words, code(total.line));
    }

    /** All rows once more, in their own order. */
    function asTable(rows) {
        const cells = rows.slice(0, CELLS_SHOWN).map((it) => [it.name, Telling.verdict(it), it.same ? 'the same' : 'something else']);
        return folded('As a table', false, table({ id: 'rows' }, ['script', 'what was found', 'what the program comes to'], cells));
    }

    const SENTENCE = 'One program was run under many scripts of faults. Each mark is a script: whether the machine could withstand it, '
        + 'and ≠ where the program came to something else than without faults.';

    /** The section of a campaign. */
    function of(found, deck) {
        const told = html('div', { class: 'told', role: 'status' }, plain('Choose a script to see what it did.'));
        const tell = teller(told, deck);
        const groups = Object.keys(VERDICTS).map((verdict) => group(verdict, found.rows.filter((it) => it.verdict === verdict), tell));
        const verdicts = html('div', { class: 'verdicts' }, ...groups);
        const grids = Roving.over(verdicts, [...verdicts.querySelectorAll('.cell')]);
        return section('campaign', 'A campaign', SENTENCE, totals(found.total), grids, told, asTable(found.rows), ...EndView.unread(found.unread, 'the rows'));
    }

    return { of };
})();

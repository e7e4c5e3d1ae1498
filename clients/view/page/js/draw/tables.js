'use strict';

/** Registers, port exchanges, memory words and repairs, in octal as the report has them, and in decimal. */
const Tables = (() => {
    const { html, code, plain, sign, item, section, row, table, folded, button } = Element;
    const SIGN = 2 ** 25;
    const ROWS_AT_ONCE = 400;
    const FEW = 100;

    /** A word of nine octal digits as a signed number: another spelling of the same word. */
    function decimal(word) {
        if (!/^[0-7]{9}$/.test(word)) return '';
        const value = Number.parseInt(word, 8);
        return (value >= SIGN ? value - 2 * SIGN : value).toLocaleString('en').replace('-', '−');
    }

    const REGISTERS = [
        ['TIMES', 'instruction times made'],
        ['PLACE', 'where the next instruction stands: module, sector, syllable, location'],
        ['DATA', 'where the data stands: module, sector'],
        ['DUP', 'two bits that are carried along'],
        ['A', 'the accumulator, in which results are made'],
        ['PQ', 'the last product or quotient'],
        ['SAVER', 'where to go back to, as of the last jump'],
    ];

    function registers(found) {
        const there = REGISTERS.filter(([name]) => found.has(name));
        const rows = there.map(([name, meaning]) => [name, code(found.get(name)), decimal(found.get(name)), meaning]);
        return table({ class: 'registers numbers' }, ['register', 'as reported', 'decimal', 'what it is'], rows);
    }

    /** A long table by parts: the first rows, and a button for more. */
    function longTable(id, headings, all, cellsOf) {
        const made = table({ id, class: 'numbers', 'data-rows': all.length }, headings, []);
        const body = made.querySelector('tbody');
        const more = button('', 'Show more rows', add);
        function add() {
            const from = body.childElementCount;
            body.append(...all.slice(from, from + ROWS_AT_ONCE).map((it) => row(cellsOf(it))));
            more.textContent = `Show more of the other ${all.length - body.childElementCount}`;
            more.hidden = body.childElementCount === all.length;
        }
        add();
        return html('div', { class: 'long' }, made, more);
    }

    const exchange = (it) => [String(it.time), it.reading ? 'read' : 'written', code(it.port), code(it.word), decimal(it.word)];
    const word = (it) => [code(it.address), code(it.word), decimal(it.word)];
    const repair = (it) => [String(it.step), code(it.address), String(it.twin), it.switched ? 'the other from then on' : 'as before'];

    /** A list of the report, folded where it is long; nothing where it is empty. */
    function list(id, name, headings, all, cellsOf) {
        if (all.length === 0) return [];
        const made = folded(`${name}: ${all.length}`, all.length <= FEW, longTable(id, headings, all, cellsOf));
        made.className = all.length <= FEW ? 'few' : 'many';
        return [made];
    }

    /** The words that can't be recovered, set apart. */
    function lost(memory) {
        const words = memory.filter((it) => it.lost);
        if (words.length === 0) return [];
        const made = html('div', { class: 'lost-words', 'data-words': words.length }, html('h3', {}, `Words that can't be recovered: ${words.length}`),
            plain('The cells that are left no longer tell what stood there.'),
            html('ul', {}, ...words.slice(0, FEW).map((it) => item(sign('?'), code(it.address)))));
        if (words.length > FEW) made.append(plain(`and ${words.length - FEW} more`));
        return [made];
    }

    const SENTENCE = 'The registers, what went through the ports, and the words in memory, as the report has them: '
        + 'in octal, and the same words in decimal.';

    /** The section of what the run left. */
    const of = (report) => section('left', 'What the run left', SENTENCE, registers(report.registers), ...lost(report.memory),
        html('div', { class: 'lists' },
            ...list('log', 'Words through the ports', ['time', 'what', 'port', 'word', 'decimal'], report.log, exchange),
            ...list('memory', 'Words in memory', ['address', 'word', 'decimal'], report.memory.filter((it) => !it.lost), word),
            ...list('repairs', 'Cells mended', ['step', 'address', 'twin', 'asked first'], report.repairs, repair)));

    return { of, registers };
})();

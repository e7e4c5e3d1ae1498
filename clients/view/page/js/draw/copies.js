'use strict';

/** The three copies of a module side by side, latch by latch, and the bits in which they differ. */
const CopiesView = (() => {
    const { html, code, plain, table } = Element;
    const BITS = 26;

    const differ = (words) => words.some((it) => it !== words[0]);

    /** Characters of a word, those marked in which the copies differ. */
    const marked = (own, all) => [...own].map((it, at) => (differ(all.map((word) => word[at])) ? html('mark', {}, it) : it));

    /** The bits of an octal word, in threes as its digits are: another spelling of the same word. */
    const bitsOf = (word) => [...word].map((digit) => Number.parseInt(digit, 8).toString(2).padStart(3, '0')).join(' ').slice(1);

    /** The numbers of the bits in which words differ, the lowest being 0. */
    function differingBits(words) {
        const bits = words.map((it) => bitsOf(it).replaceAll(' ', ''));
        return Array.from({ length: BITS }, (_, bit) => bit).filter((bit) => differ(bits.map((it) => it[BITS - 1 - bit])));
    }

    /** What the vote makes of a latch: what two copies say. Where no two agree each bit has a majority of its own, and no word is told. */
    function voteOf(words, copies) {
        if (!differ(words)) return 'all agree';
        const agreeing = copies.filter((_, at) => words.filter((it) => it === words[at]).length > 1);
        return agreeing.length === 0 ? 'bit by bit' : `as copies ${agreeing.map((it) => it.copy).join(' and ')}`;
    }

    /** What heads a column, said again in the cell where a narrow page has no columns. */
    const narrow = (words) => html('span', { class: 'narrow', 'aria-hidden': 'true' }, `${words} `);

    function word(words, at, copy) {
        const own = words[at];
        const made = html('div', {}, narrow(`copy ${copy}`), html('code', {}, ...(differ(words) ? marked(own, words) : [own])));
        if (differ(words)) made.append(html('code', { class: 'bits' }, ...marked(bitsOf(own), words.map(bitsOf))));
        return made;
    }

    const wordsOf = (copies, index) => copies.map((it) => it.latches[index]);

    function latchRow(name, index, copies) {
        const words = wordsOf(copies, index);
        const vote = html('span', {}, narrow('the vote:'), voteOf(words, copies));
        return [code(name), ...words.map((_, at) => word(words, at, copies[at].copy)), vote];
    }

    /** In which bits of which latches the copies differ, in words. */
    function differences(module, copies) {
        const found = module.latches.map((name, index) => [name, differingBits(wordsOf(copies, index))]).filter(([, bits]) => bits.length > 0);
        if (found.length === 0) return 'All copies say the same.';
        const inLatch = ([name, bits]) => `In ${name} they differ in ${bits.length === 1 ? 'bit' : 'bits'} ${bits.join(', ')}`;
        return `${found.map(inLatch).join('. ')}; bit 0 is the lowest.`;
    }

    /** The copies of one module, from their answers. */
    function of(module, copies) {
        const headings = ['', ...copies.map((it) => `copy ${it.copy}`), 'the vote'];
        const rows = module.latches.map((name, index) => latchRow(name, index, copies));
        return html('div', { class: 'side-by-side', 'data-module': module.number },
            html('h3', {}, `The ${module.name}`), plain(`It ${module.does}.`),
            html('div', { class: 'wide' }, table({ class: 'copies-table' }, headings, rows)),
            html('p', { class: 'differences' }, differences(module, copies)));
    }

    /** Whether a copy says anything that no other copy says. */
    function isApart(copy, copies) {
        const others = copies.filter((it) => it !== copy);
        return others.length > 0 && copy.latches.some((own, at) => others.every((it) => it.latches[at] !== own));
    }

    return { of, isApart };
})();

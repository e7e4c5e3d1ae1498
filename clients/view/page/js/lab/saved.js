'use strict';

/** Reads what a saved text says of the memories: what each twin stores, the words that are intended, which twin is asked first. */
const Saved = (() => {
    const { numbered, taken } = Lines;
    const PLACE = '([0-7] [0-7]{2} [0-7]{3})';
    const CELL = new RegExp(`^CELL ([01]) ${PLACE} ([0-7]{10})$`);
    const WORD = new RegExp(`^WORD ${PLACE} ([0-7]{9})$`);
    const SELECT = /^SELECT ([01]) ([01]) ([01]) ([01])$/;
    const NO_WORD = '000000000';
    const CELL_OF_NO_WORD = '1000020000';
    const HALF = 2 ** 14;
    const SYLLABLE = 2 ** 13;

    const empty = () => ({ cells: Parts.TWINS.map(() => new Map()), words: new Map(), selected: new Map() });

    const forms = (found) => [
        [CELL, (m) => { found.cells[Number(m[1])].set(m[2], m[3]); }],
        [WORD, (m) => { found.words.set(m[1], m[2]); }],
        [SELECT, (m) => m.slice(1).forEach((twin, pair) => found.selected.set(String(pair), Number(twin)))],
    ];

    /** What a saved text says; its other lines are passed over. */
    function read(text) {
        const found = empty();
        const known = forms(found);
        for (const line of numbered(text)) taken(known, line.text);
        return found;
    }

    /** The word whose bits stand in a cell, without its two parity bits. */
    function wordIn(cell) {
        const bits = Number.parseInt(cell, 8);
        const word = Math.floor(bits / HALF) % SYLLABLE * SYLLABLE + bits % SYLLABLE;
        return word.toString(8).padStart(9, '0');
    }

    const cellOf = (saved, twin, place) => saved.cells[twin].get(place) ?? CELL_OF_NO_WORD;

    /** Whether a cell of a duplex pair isn't as it should be: it has another word's bits, or has the word's and yet isn't what the other twin stores. */
    function isDamaged(saved, twin, place) {
        const [own, other] = [cellOf(saved, twin, place), cellOf(saved, 1 - twin, place)];
        const word = saved.words.get(place) ?? NO_WORD;
        return wordIn(own) !== word || (own !== other && wordIn(other) === word);
    }

    /** Whether a cell of a simplex pair has another word's bits than the word of its bank, which of twin 1 is four more than the pair. */
    function isAlteredAlone(saved, twin, place) {
        const bank = Number(place[0]) + 4 * twin;
        return wordIn(cellOf(saved, twin, place)) !== (saved.words.get(`${bank}${place.slice(1)}`) ?? NO_WORD);
    }

    /** Of the places that damage was done to, by twin, those that are damaged still. */
    function damaged(saved, places, simplex) {
        const isOne = (twin, place) => (simplex.has(place[0]) ? isAlteredAlone : isDamaged)(saved, twin, place);
        return places.map((those, twin) => new Set([...those].filter((place) => isOne(twin, place))));
    }

    return { read, damaged };
})();

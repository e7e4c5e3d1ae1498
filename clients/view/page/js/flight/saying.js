'use strict';

/** What a copy of a module says, for a visitor: a number, or a word. It is one latch of the module, as docs/MACHINE.md has it, in other spelling. */
const FlightSaying = (() => {
    const SIGN = 2 ** 25;
    const MOST_CHARACTERS = 5;
    const NAMES = ['HOP', 'MPY', 'SUB', 'DIV', 'TNZ', 'MPH', 'AND', 'ADD', 'TRA', 'XOR', 'PIO', 'STO', 'TMI', 'RSU', 'SHF', 'CLA'];
    const REQUESTS = ['nothing', 'store', 'store', 'write', 'read', 'nothing', 'nothing', 'nothing'];

    /** Which latch of each module is told. */
    const LATCHES = { 1: 0, 2: 0, 3: 0, 4: 0, 5: 0, 6: 3, 7: 1 };

    /** Bits of a word, from the higher to the lower. */
    const field = (word, high, low) => Math.floor(Number.parseInt(word, 8) / 2 ** low) % 2 ** (high - low + 1);

    /** A word as a signed number. */
    function numberOf(word) {
        const value = Number.parseInt(word, 8);
        return value >= SIGN ? value - 2 * SIGN : value;
    }

    const spelled = (number, language, digits) => number.toLocaleString(language, { useGrouping: false, maximumFractionDigits: digits }).replace('-', '−');

    /** A number in at most five characters, as many as fit a lamp on a phone: whole, or rounded to thousands, or to millions. */
    function short(number, language) {
        const spellings = [
            spelled(number, language, 0), `${spelled(number / 1000, language, 0)}k`,
            `${spelled(number / 1000000, language, 1)}M`, `${spelled(number / 1000000, language, 0)}M`,
        ];
        return spellings.find((it) => it.length <= MOST_CHARACTERS);
    }

    const SAYS = {
        1: (word) => String(Math.min(field(word, 1, 0) + 1, 3)),
        2: (word) => String(field(word, 17, 10)),
        3: (word, words) => words(`op.${NAMES[field(word, 12, 9)]}`),
        4: (word) => String(field(word, 6, 3)),
        5: (word, words) => short(numberOf(word), words.language),
        6: (word, words) => short(numberOf(word), words.language),
        7: (word, words) => words(`request.${REQUESTS[field(word, 2, 0)]}`),
    };

    /** What a module with these latches says. */
    const of = (module, latches, words) => SAYS[module](latches[LATCHES[module]], words);

    return { of, numberOf };
})();

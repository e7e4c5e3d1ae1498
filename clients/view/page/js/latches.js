'use strict';

/** Other spellings of words: the fields of latches and the names of instructions, as docs/MACHINE.md has them. Nothing is worked out here. */
const Latches = (() => {
    const NAMES = ['HOP', 'MPY', 'SUB', 'DIV', 'TNZ', 'MPH', 'AND', 'ADD', 'TRA', 'XOR', 'PIO', 'STO', 'TMI', 'RSU', '', 'CLA'];
    const SIGN = 2 ** 25;
    const PHASES = ['A', 'B', 'C', 'C'];
    const REQUESTS = ['nothing', 'store', 'store', 'write', 'read', 'nothing', 'nothing', 'nothing'];

    const octal = (number, digits) => number.toString(8).padStart(digits, '0');

    /** Bits of a word, from the higher to the lower. */
    const field = (word, high, low) => Math.floor(Number.parseInt(word, 8) / 2 ** low) % 2 ** (high - low + 1);

    /** The code 14 has three instructions, parted by two bits of the address. */
    function fourteenth(word) {
        if (field(word, 7, 7) === 0) return 'CDS';
        return field(word, 8, 8) === 0 ? 'SHF' : 'EXM';
    }

    /** The syllable of a latch that holds an instruction, in five octal digits. */
    const syllable = (word) => octal(field(word, 12, 0), 5);

    /** The name of an instruction. */
    const nameOf = (word) => NAMES[field(word, 12, 9)] || fourteenth(word);

    /** An instruction as text: its name and its address. */
    const instruction = (word) => `${nameOf(word)} ${octal(field(word, 8, 0), 3)}`;

    /** A word as a signed number. */
    function decimal(word) {
        const value = Number.parseInt(word, 8);
        return (value >= SIGN ? value - 2 * SIGN : value).toLocaleString('en').replace('-', '−');
    }

    /** The place of a HOP constant, over a pair that is duplex: bank, sector, syllable, location. */
    const place = (word) => `${field(word, 25, 24)} ${octal(field(word, 22, 19), 2)} ${field(word, 18, 18)} ${octal(field(word, 17, 10), 3)}`;

    /** The syllable bit of a place. */
    const syllableBit = (word) => field(word, 18, 18);

    const dataPlace = (word) => `${field(word, 9, 8)} ${octal(field(word, 6, 3), 2)}`;
    const phase = (word) => PHASES[field(word, 1, 0)];
    const hold = (word) => field(word, 2, 0);
    const request = (word) => REQUESTS[field(word, 2, 0)];

    /** Whether the exchange stores the saver, which the locator has, and not the accumulator. */
    const storesSaver = (word) => field(word, 2, 0) === 2;

    const SHORT = [
        null,
        (latches) => `→ ${phase(latches[0])}`,
        (latches) => place(latches[0]),
        (latches) => instruction(latches[0]),
        (latches) => dataPlace(latches[0]),
        (latches) => decimal(latches[0]),
        (latches) => decimal(latches[0]),
        (latches) => request(latches[1]),
    ];

    /** What a module holds, in few characters: a phase, a place, an instruction, a number, a request. */
    const short = (module, latches) => SHORT[module](latches);

    return { instruction, nameOf, syllable, decimal, place, dataPlace, syllableBit, hold, request, storesSaver, short };
})();

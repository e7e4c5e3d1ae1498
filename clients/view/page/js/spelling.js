'use strict';

/** How instructions, places and what the modules hold are spelled: in words and in numbers as everybody counts; or, where octal is asked for, as the
 * texts of lvdc have them. */
const Spelling = (() => {
    const LOCATIONS = 256;
    const SECTORS = 16;

    const eight = (digits) => Number.parseInt(digits, 8);

    /** The number of a cell: they are counted from 0, over all pairs and sectors. */
    const numberOf = (pair, sector, location = '0') => (eight(pair) * SECTORS + eight(sector)) * LOCATIONS + eight(location);

    /** A cell by its place or its address, as 0 01 002. */
    const cell = (place, words) => (words.octal ? place : String(numberOf(...place.split(' '))));

    /** One of both memories. */
    const twin = (number, words) => (words.octal ? number : number + 1);

    /** An instruction: what it does, in a word; or its name and its address. */
    const instruction = (it, words) => (words.octal ? it.text : words(`op.${it.name}`));

    /** What stands in a cell: an instruction, or a number. */
    function content({ word, instruction: it }, words) {
        if (words.octal) return word;
        return it ? instruction(it, words) : Latches.decimal(word);
    }

    const request = ([, latch], words) => words(`request.${Latches.request(latch)}`);

    const IN_WORDS = {
        2: ([latch]) => { const [bank, sector, , location] = Latches.place(latch).split(' '); return String(numberOf(bank, sector, location)); },
        3: ([latch], words) => words(`op.${Latches.nameOf(latch)}`),
        4: ([latch]) => `${numberOf(...Latches.dataPlace(latch).split(' '))} …`,
        7: request,
    };

    const IN_OCTAL = { 5: ([latch]) => latch, 6: ([latch]) => latch, 7: request };

    /** What a module holds, in few characters: of the locator the cell of the next instruction, of the selector the first cell of the data. */
    function module(number, latches, words) {
        const spelled = (words.octal ? IN_OCTAL : IN_WORDS)[number];
        return spelled ? spelled(latches, words) : Latches.short(number, latches);
    }

    return { cell, twin, instruction, content, module };
})();

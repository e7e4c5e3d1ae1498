'use strict';

/** What a press comes to: the fault lines of a deck. */
const Hurts = (() => {
    const FOR_GOOD = 2999999;
    const PAIRS = [0, 1, 2, 3];
    const BIT = '0000000001';
    const NO_BIT = '0000000000';

    /** For each module the lies that a copy of it can tell: a latch by its index, and the bits of it that are turned over. A multiplier that is idle
     * can be made to land a product. `clients/view/server/stories.py` has the same. */
    const LIES = {
        1: ['0 1', '0 2', '1 1'], 2: ['0 2000', '0 4000', '0 2000000', '1 2000'], 3: ['0 1000', '0 2000', '0 4000', '0 1'], 4: ['0 10', '0 400'],
        5: ['0 10', '0 20', '1 10', '0 100', '1 100'], 6: ['0 100', '3 1', '4 100', '1 6', '1 12', '1 36', '1 62'], 7: ['1 1', '1 3', '0 1'],
    };

    const lastOf = (step, lasting) => (lasting ? FOR_GOOD : step);

    const COPY_LINES = {
        FLIP: (at, lie) => `FLIP ${at} ${lie}`,
        LAG: (at) => `LAG ${at}`,
        DEAF: (at) => `DEAF ${at}`,
    };

    /** A copy is hurt at a step, or from it on; where it lies, by one of the lies of its module. */
    function copy(kind, { module, copy: number }, step, lasting, lie = LIES[module][0]) {
        return [COPY_LINES[kind](`${module} ${number} ${step} ${lastOf(step, lasting)}`, lie)];
    }

    /** A cell is hurt before a step: a bit of it is turned over; or it sticks from then on, at what the word's lowest bit isn't. */
    function cell({ twin, place }, step, lasting, word) {
        if (!lasting) return [`DAMAGE ${twin} ${place} ${step} ${BIT}`];
        const isOdd = word !== undefined && Number(word.at(-1)) % 2 === 1;
        return [`STICK ${twin} ${place} ${step} ${FOR_GOOD} ${BIT} ${isOdd ? NO_BIT : BIT}`];
    }

    /** A whole memory dies for good: its twin of each pair. */
    const memory = (twin, step) => PAIRS.map((pair) => `DEAD ${twin} ${pair} ${step} ${FOR_GOOD}`);

    /** What an act hurts in a step: a copy, a cell, a memory, or nothing there. */
    function targetOf(lines, step) {
        const faults = lines.map((text, at) => Faults.of({ text, number: at + 1 }));
        const [first] = faults;
        if (!first || !Faults.actsIn(first, step, step)) return null;
        if (first.module !== null) return Trace.keyOf(first.module, first.copy);
        return first.place === null ? `memory ${first.twin} ${faults.length}` : `cell ${first.twin} ${first.place}`;
    }

    /** Whether a fault lasts to the end of all steps. */
    const isLasting = (fault) => fault.last === FOR_GOOD;

    return { LIES, copy, cell, memory, targetOf, isLasting };
})();

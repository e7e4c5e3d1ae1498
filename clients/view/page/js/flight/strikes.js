'use strict';

/** What a strike is: the fault lines of a deck. A copy is wrong for a second and a half, so that two of a module spoil a word of the flight whenever
 * they are struck. The kind of fault and its bits were chosen so, and `clients/view/test-lab` tries all pairs. A memory is dead for good. */
const Strikes = (() => {
    const STEPS = 90;
    const FOR_GOOD = 2999999;
    const PAIRS = [0, 1, 2, 3];

    /** For each module bits of a latch: they are turned over in each step, or held fast. */
    const LIES = {
        1: (when) => `FLIP ${when} 0 2`, 2: (when) => `FLIP ${when} 0 2000`, 3: (when) => `FLIP ${when} 0 2000`, 4: (when) => `FORCE ${when} 0 10 0`,
        5: (when) => `FLIP ${when} 0 10000`, 6: (when) => `FLIP ${when} 3 1000`, 7: (when) => `FLIP ${when} 1 3`,
    };

    const copy = (module, number, step) => [LIES[module](`${module} ${number} ${step} ${step + STEPS - 1}`)];
    const memory = (twin, step) => PAIRS.map((pair) => `DEAD ${twin} ${pair} ${step} ${FOR_GOOD}`);

    return { STEPS, copy, memory };
})();

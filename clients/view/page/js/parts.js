'use strict';

/** The parts of the machine, as docs/MACHINE.md has them: seven modules in three copies each, and two memories, which it calls twins. */
const Parts = (() => {
    const MODULES = [
        { name: 'timer', latches: ['PHASE', 'HOLD'], does: 'counts the three phases of each instruction time' },
        { name: 'locator', latches: ['PLACE', 'SAVER'], does: 'knows where the next instruction stands' },
        { name: 'decoder', latches: ['INSTR'], does: 'holds the instruction that is carried out' },
        { name: 'selector', latches: ['DATA'], does: 'knows where the data stands' },
        { name: 'accumulator', latches: ['A', 'OPERAND'], does: 'adds, subtracts, shifts and keeps the result' },
        { name: 'multiplier', latches: ['PQ', 'CONTROL', 'M', 'H', 'Q'], does: 'multiplies and divides, phase by phase' },
        { name: 'exchange', latches: ['STOP', 'REQUEST'], does: 'stores words, uses the ports, stops the machine' },
    ].map((it, index) => ({ ...it, number: index + 1 }));

    const COPIES = [1, 2, 3];
    const TWINS = [0, 1];
    const PHASES = ['A', 'B', 'C'];

    /** The module with this number, 1 to 7. */
    const module = (number) => MODULES[number - 1];

    /** The first step of an instruction time: the first phase of it. */
    const firstStepOf = (time) => time * PHASES.length;

    /** The last step of an instruction time. */
    const lastStepOf = (time) => firstStepOf(time + 1) - 1;

    /** The instruction time in which a step is. */
    const timeOf = (step) => Math.floor(step / PHASES.length);

    /** The phase that a step is. */
    const phaseOf = (step) => PHASES[step % PHASES.length];

    return { MODULES, COPIES, TWINS, module, firstStepOf, lastStepOf, timeOf, phaseOf };
})();

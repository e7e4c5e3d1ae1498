'use strict';

/** Says in plain words what the texts of lvdc say, for a visitor without octal. */
const Telling = (() => {
    const counted = (count, one, many) => `${count} ${count === 1 ? one : many}`;

    const copyOf = (it) => `copy ${it.copy} of the ${Parts.module(it.module).name}`;

    // ---- ends and refusals

    const STOPS = {
        SHIFT: 'the program came to a shift that has no meaning. That stops the machine.',
        EXM: 'the program came to EXM, an instruction that stops this machine.',
    };

    /** Several of a module; of the exchange its copies, since exchanges are something else too. */
    const many = (number) => (Parts.module(number).name === 'exchange' ? 'copies of the exchange' : `${Parts.module(number).name}s`);

    const ENDS = {
        done(_, times) {
            const steps = times === null ? '' : `, after ${Parts.firstStepOf(times)} steps`;
            return `The run came to its end${steps}.`;
        },
        stopped(end) {
            if (end.by !== 'MEMORY') return `At step ${end.step} ${STOPS[end.by]}`;
            return `At step ${end.step} a read of the word at ${end.address} found no good copy of it. The machine stops there.`;
        },
        logic: (end) => `At step ${end.step} two of the three ${many(end.module)} were wrong. `
            + 'The run ends there: from then on the vote can\'t be relied on.',
        memory: (end) => `At step ${end.step} the word at ${end.address} was to be read, and it can't be recovered any more. `
            + 'The run ends there: what the twins still show of it can\'t be relied on.',
        device: (end) => `At step ${end.step} the device at port ${end.port} failed. The run ends there.`,
    };

    /** How a run ended, by its END line and the times that were made. */
    const end = (found, times) => (found ? ENDS[found.kind](found, times) : 'The text has no line that says how the run ended.');

    const TITLES = {
        RUN: '',
        THROUGH: 'The run went on through every fault, and no step was judged.',
        PLAIN: 'This is the plain machine: one copy of everything, and no faults.',
    };
    const title = (name) => TITLES[name] ?? '';

    const CAUSES = {
        NoProgram: 'the program is missing',
        BadSection: 'a section is missing or out of its place',
        BadLine: 'the line has none of the forms that may stand there',
        NoDevice: 'no fitting device is at that port',
        TooManyEvents: 'there are too many fault lines',
        CountTooLarge: 'the count is too large',
        TooManyScripts: 'there are too many scripts',
        BadImageLine: 'the line is none of an image',
        AddressOrder: 'the address does not come after the one before',
        BadWord: 'the word is too large',
        LineTooLong: 'the line is too long',
        BadLabel: 'the label is not a name',
        UnknownOperation: 'the operation is not known',
        ExecuteModified: 'the operation EXM is left out here',
        BadDirective: 'the directive has not its form',
        BadOperand: 'the operand has not its form',
        MissingEnd: 'END is missing',
        AfterEnd: 'something stands after END',
        DuplicateName: 'the name is defined twice',
        NoRoom: 'there is no room',
        Overlap: 'two blocks overlap',
        UndefinedName: 'no line defines the name',
        OutOfRange: 'the number is out of range',
        OutOfSector: 'the name cannot be reached from there',
        BadMacro: 'the macro has not its form',
        TooDeep: 'the macros call each other too deeply',
        TooManyCalls: 'there are too many calls of macros',
        ExpansionTooLong: 'the expansion is too long',
        BadSave: 'the saved text has not its form',
        ReadFault: 'reading failed',
        TooLong: 'the input is too long',
    };

    /** A refusal. */
    function refusal(found) {
        const where = found.line === null ? 'The input was refused' : `The input was refused at line ${found.line}`;
        return Object.hasOwn(CAUSES, found.cause) ? `${where}: ${CAUSES[found.cause]}.` : `${where}.`;
    }

    // ---- faults, repairs, exchanges

    const span = (it) => (it.first === it.last ? `at step ${it.first}` : `from step ${it.first} to step ${it.last}`);
    const latchOf = (it) => Parts.module(it.module).latches[it.latch];

    const FAULTS = {
        FLIP: (it) => `${copyOf(it)}: bits of ${latchOf(it)} are turned over ${span(it)}`,
        FORCE: (it) => `${copyOf(it)}: bits of ${latchOf(it)} are held fast ${span(it)}`,
        LAG: (it) => `${copyOf(it)}: keeps its old state ${span(it)}`,
        DEAF: (it) => `${copyOf(it)}: hears no votes, only the copies ${it.copy}, ${span(it)}`,
        DAMAGE: (it) => `twin ${it.twin}: bits of the cell ${it.place} are turned over before step ${it.first}`,
        STICK: (it) => `twin ${it.twin}: bits of the cell ${it.place} are stuck ${span(it)}`,
        DEAD: (it) => `twin ${it.twin}: all of pair ${it.pair} is dead ${span(it)}`,
    };

    /** What a fault does. */
    const fault = (it) => FAULTS[it.kind](it);

    function repair(it) {
        const selected = it.switched ? '; the other twin is asked first from then on' : '';
        return `twin ${it.twin}: the cell ${it.address} was found bad at step ${it.step} and mended${selected}`;
    }

    const exchange = (it) => `port ${it.port}: the word ${it.word} was ${it.reading ? 'read' : 'written'} in instruction time ${it.time}`;

    const unplug = (it) => `port ${it.port}: its device is taken away before instruction time ${it.time}`;

    /** What the redundancy did, by the report's last lines. */
    function outvoted(report) {
        const copies = report.wrong.length;
        const repairs = report.repairs.length;
        if (copies === 0 && repairs === 0) return 'No copy differed from the vote, and no cell had to be mended.';
        const differed = `${copies === 1 ? 'One' : copies} of the 21 copies differed from the vote at least once.`;
        const mended = `${repairs === 1 ? 'Once' : `${repairs} times`} a read found a bad cell, took the word from the other twin and mended the cell.`;
        return [...(copies > 0 ? [differed] : []), ...(repairs > 0 ? [mended] : [])].join(' ');
    }

    // ---- campaigns

    const VERDICTS = {
        ADMISSIBLE: () => 'in no step could these faults mislead the machine',
        LOGIC: (row) => `at step ${row.step} two of the three ${many(row.module)} are wrong at once`,
        MEMORY: (row) => `at step ${row.step} the word at ${row.address} is to be read and can't be recovered`,
    };

    const outcome = (row) => `the program comes to ${row.same ? 'the same as' : 'something else than'} without faults`;

    /** A row of a campaign. */
    const row = (it) => `${it.name}: ${VERDICTS[it.verdict](it)}; ${outcome(it)}.`;

    return { counted, end, title, refusal, fault, repair, exchange, unplug, outvoted, row, verdict: (it) => VERDICTS[it.verdict](it) };
})();

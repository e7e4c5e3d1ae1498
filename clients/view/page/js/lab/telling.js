'use strict';

/** Says in a visitor's words what was broken, and what a run came to. All numbers are those of fault lines and texts. */
const LabTelling = (() => {
    const MOST_PLACES = 3;

    function span(fault, words) {
        const kind = fault.first === fault.last ? 'once' : 'some';
        return words(`lab.span.${Hurts.isLasting(fault) ? 'good' : kind}`, fault);
    }

    const faultsOf = (lines) => lines.map((text, at) => Faults.of({ text, number: at + 1 }));

    /** Whether an act is that a whole memory dies. */
    const isMemory = (faults) => faults.length > 1 && faults.every((it) => it?.kind === 'DEAD' && it.twin === faults[0].twin);

    function fault(it, words) {
        const module = it.module === null ? '' : words(`module.${it.module}`);
        const latch = it.latch === null ? '' : Parts.module(it.module).latches[it.latch];
        const [twin, place] = [Spelling.twin(it.twin, words), it.place && Spelling.cell(it.place, words)];
        return words(`lab.hurt.${it.kind}`, { ...it, module, latch, twin, place, span: span(it, words) });
    }

    /** What an act was; a line that can't be read stands as it is. */
    function act(lines, words) {
        const faults = faultsOf(lines);
        if (isMemory(faults)) return words('lab.hurt.memory', { twin: Spelling.twin(faults[0].twin, words), span: span(faults[0], words) });
        return faults.map((it, at) => (it ? fault(it, words) : lines[at])).join('; ');
    }

    /** The copies of a module that the script makes wrong in a step. */
    function wrongCopies(lines, module, step) {
        const acting = faultsOf(lines).filter((it) => it?.module === module && Faults.actsIn(it, step, step));
        return [...new Set(acting.map((it) => it.copy))].sort();
    }

    /** Some cells, of which the first ones are named. */
    function cells(addresses, words) {
        const named = addresses.slice(0, MOST_PLACES).map((it) => Spelling.cell(it, words));
        return [...named, ...(addresses.length > MOST_PLACES ? ['…'] : [])].join(', ');
    }

    const VALUES = {
        'this-time': ({ unmet }, _, words) => ({ why: words(`lab.why.${unmet}`) }),
        'so-far': ({ report }, _, words) => ({ places: cells(report.memory.filter((it) => it.lost).map((it) => it.address), words) }),
        logic: ({ report: { end } }, lines, words) => (
            { step: end.step, module: words(`module.${end.module}`), copies: wrongCopies(lines, end.module, end.step).join(' & ') }),
        memory: ({ report: { end } }, _, words) => ({ step: end.step, address: Spelling.cell(end.address, words) }),
        device: ({ report: { end } }) => end,
        refused: ({ refusal }) => refusal,
        // in a kiosk the field for instruction times isn't there
        unknown: ({ why }, _, words) => ({ why: words(why === 'lab.late' && document.body.classList.contains('kiosk') ? 'lab.late.kiosk' : why) }),
    };

    /** An outcome in a title and a text; `lines` are the fault lines. */
    function outcome(it, lines, words) {
        const values = VALUES[it.kind]?.(it, lines, words) ?? {};
        const lead = it.kind === 'healthy' ? words('lab.lead') : null;
        return { title: words(`lab.${it.kind}.title`), text: words(`lab.${it.kind}.text`, values), lead };
    }

    /** A line of the port log. */
    function exchange(it, words) {
        if (!it) return words('row.nothing');
        const way = words(it.reading ? 'word.in' : 'word.out');
        return words('lab.exchange', { time: it.time, way, port: it.port, word: words.octal ? it.word : Latches.decimal(it.word) });
    }

    /** How a run ended; in octal by its line. */
    function end(it, words) {
        if (words.octal || it?.step === undefined) return words.octal ? it?.line ?? '' : words('lab.end.done');
        return words(it.kind === 'stopped' && it.by !== 'MEMORY' ? 'lab.end.stopped' : 'lab.end.lost', { step: it.step });
    }

    /** The modules that have the registers of a report. */
    const HOLDERS = { PLACE: 2, SAVER: 2, DATA: 4, DUP: 4, A: 5, PQ: 6 };

    /** What a run holds otherwise than a healthy machine: in words the modules and cells, in octal the registers and addresses. */
    function held(registers, addresses, words) {
        const holders = words.octal ? registers : registers.filter((it) => HOLDERS[it]).map((it) => words(`module.${HOLDERS[it]}`));
        const cells = addresses.map((it) => words('lab.cell', { cell: Spelling.cell(it, words) }));
        return [...new Set([...holders, ...cells])].slice(0, MOST_PLACES);
    }

    /** Why two runs are the same in all that the reports tell. */
    const harmless = ({ key, step, module }, words) => words(`lab.harmless.${key}`, { step, module: module ? words(`module.${module}`) : '' });

    /** Where a run through every fault parts from that of a healthy machine; where it doesn't, why. */
    function parting({ ends, first, registers, words: addresses, why }, words) {
        if (ends[0]?.line !== ends[1]?.line) return words('lab.parted.end', { healthy: end(ends[0], words), this: end(ends[1], words) });
        if (first >= 0) return words('lab.parted.log');
        if (!why) return words('lab.parted.inside', { what: held(registers, addresses, words).join(', ') });
        return [words('lab.parted.none'), harmless(why, words), words('lab.parted.luck')].join(' ');
    }

    /** What a program does, where that is one of the examples; else its name. */
    const program = (name, words) => (words.has(`program.${name}`) ? words(`program.${name}`) : name.replaceAll('-', ' '));

    return { act, outcome, exchange, parting, program };
})();

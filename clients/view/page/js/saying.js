'use strict';

/** Says in a visitor's words what happens in a moment. All numbers are those of the trace. */
const Saying = (() => {
    /** What is moved in the step, or by its phase that nothing is. */
    function exchange(moment, words) {
        const { exchange: it } = moment;
        if (!it) return words(`happens.${Parts.phaseOf(moment.step)}`);
        const single = it.kind === 'STORE' && moment.stored === 1;
        const text = moment.instruction ? Spelling.instruction(moment.instruction, words) : '';
        const values = { text, number: Latches.decimal(it.word), port: it.port };
        return words(`happens.${it.kind}${single ? '.one' : ''}`, values);
    }

    /** Whether two copies of a module are wrong at once, so that the good one may be outvoted. */
    const isTwice = (moment, module) => [...moment.wrong].filter((it) => it.startsWith(`${module}-`)).length > 1;

    /** Which sentence tells of a copy. */
    function sentenceOf(moment, key, kind) {
        if (!moment.made) return 'unmade';
        const isGood = kind === 'differed' && !moment.wrong.has(key) && isTwice(moment, key[0]);
        return isGood ? 'good' : kind;
    }

    /** What became of the copies that are not well. */
    function copies(moment, words) {
        const found = [...moment.lamps].filter(([, kind]) => kind !== 'well');
        return found.map(([key, kind]) => {
            const [module, copy] = key.split('-');
            return words(`happens.${sentenceOf(moment, key, kind)}`, { copy, module: words(`module.${module}`) });
        });
    }

    /** The faults on memory that begin in the step. */
    function harms(moment, words) {
        const told = ({ twin, place, pair }) => ({ twin: Spelling.twin(twin, words), place: place && Spelling.cell(place, words), pair });
        return moment.faults.filter((it) => it.twin !== null && it.first === moment.step).map((it) => words(`happens.${it.kind}`, told(it)));
    }

    /** A cell that was found bad: it is rewritten, unless its twin is dead there. */
    function repairs({ repair, cells }, words) {
        if (!repair) return [];
        const isDead = cells.dead[repair.twin].has(Cells.placeOf(repair.address)[0]);
        const [twin, other] = [repair.twin, 1 - repair.twin].map((it) => Spelling.twin(it, words));
        const values = { twin, other, place: Spelling.cell(repair.address, words) };
        return [words(isDead ? 'happens.repair.dead' : 'happens.repair', values)];
    }

    /** The sentences of a moment: the harm before it, its exchange, its repair, its copies. */
    function of(moment, words) {
        const moved = moment.made ? [exchange(moment, words), ...repairs(moment, words)] : [];
        return [...harms(moment, words), ...moved, ...copies(moment, words)];
    }

    /** Where the moment stands. */
    function where(moment, last, words) {
        const step = words('moment.step', { step: moment.step, last });
        const phase = words('moment.phase', { phase: Parts.phaseOf(moment.step), time: Parts.timeOf(moment.step) });
        return `${step}: ${phase}`;
    }

    /** How a run ended that can't be relied on, with the copies that are wrong. */
    function inadmissible(moment, words) {
        const { end } = moment;
        if (end.kind === 'memory') return words('end.word', { step: end.step, place: Spelling.cell(end.address, words) });
        const copies = [...moment.wrong].filter((it) => it.startsWith(`${end.module}-`)).map((it) => it.slice(2)).sort();
        return words('end.two', { modules: words(`two.${end.module}`), step: end.step, copies: copies.join(' & ') });
    }

    return { of, where, inadmissible };
})();

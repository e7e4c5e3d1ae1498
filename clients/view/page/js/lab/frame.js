'use strict';

/** The moments around a step: a window of the trace, and of a window that doesn't begin with the run the state that it begins with. */
const LabFrame = (() => {
    const TIMES_BEFORE = 20;
    const STEPS = 300;
    const EXCHANGES_SHOWN = 12;

    /** The places that damage was done to before a step, by twin. */
    function damagedBefore(deck, step) {
        const done = deck.faults.filter((it) => it.kind === 'DAMAGE' && it.first < step);
        return Parts.TWINS.map((twin) => new Set(done.filter((it) => it.twin === twin).map((it) => it.place)));
    }

    /** Whether anything befell a memory before a step. */
    const isHurtBefore = (deck, step) => deck.faults.some((it) => it.twin !== null && it.first < step);

    /** The last exchanges at ports before a step, as many as are shown. */
    function exchangesBefore(report, step) {
        const found = report.log.filter((it) => Parts.lastStepOf(it.time) < step).slice(-EXCHANGES_SHOWN);
        return found.map((it) => ({ kind: it.reading ? 'IN' : 'OUT', port: it.port, word: it.word, step: Parts.lastStepOf(it.time) }));
    }

    /** What stands when a window begins. Where nothing befell a memory before, each pair asks its first twin; else the state is asked for, which
     * can't be had of a run through every fault. */
    async function before(deck, text, step, through, run) {
        const log = exchangesBefore(LabOutcome.reportOf(await run), step);
        if (!isHurtBefore(deck, step)) return { log, selected: new Map() };
        const answer = through ? null : await Asking.ask(['save', Parts.timeOf(step)], text);
        if (!answer?.text.startsWith('LVDC SAVE ')) return { log };
        const saved = Saved.read(answer.text);
        return { log, selected: saved.selected, damaged: Saved.damaged(saved, damagedBefore(deck, step), deck.simplex) };
    }

    /** The moments around a step of a deck's run; none where the deck is refused. */
    async function around(text, step, through, listing) {
        const flags = through ? ['--through'] : [];
        const first = Parts.firstStepOf(Math.max(0, Parts.timeOf(step) - TIMES_BEFORE));
        const deck = Deck.read(text);
        const asked = [Asking.ask(['trace', ...flags, first, STEPS], text), before(deck, text, first, through, Asking.ask(['run', ...flags], text))];
        const [answer, earlier] = await Promise.all(asked);
        if (answer.text.startsWith('REFUSED ')) return { moments: [] };
        return { moments: Moments.of(Trace.read(answer.text), deck, listing, earlier) };
    }

    /** The moment of a step, or the last one before it; none where there is neither. */
    const nearest = (frame, step) => frame.moments.findLast((it) => it.step <= step) ?? null;

    /** Whether a frame has the moment of a step. */
    const has = (frame, step) => frame.moments.length > 0 && frame.moments[0].step <= step && step <= frame.moments.at(-1).step;

    return { around, nearest, has };
})();

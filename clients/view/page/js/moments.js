'use strict';

/** The moments of a run: one for each step of a trace, with all that is drawn there; and one more where a step was begun and not made. */
const Moments = (() => {
    const { keyOf } = Trace;
    const COPIES = Parts.MODULES.flatMap(({ number }) => Parts.COPIES.map((copy) => keyOf(number, copy)));
    const NOT_MADE = ['logic', 'memory', 'device'];

    /** What became of a copy: it differs from the vote, it is wrong by the script, it is back at the vote, or it is well. */
    function lampOf(key, step, before) {
        if (step.differing.has(key)) return 'differed';
        if (step.wrong.has(key)) return 'hurt';
        return before?.differing.has(key) ? 'healed' : 'well';
    }

    const lampsOf = (step, before) => new Map(COPIES.map((key) => [key, lampOf(key, step, before)]));

    /** An instruction by its latch: its name, and its text in octal. */
    const named = (latch) => ({ text: Latches.instruction(latch), name: Latches.nameOf(latch) });

    /** The instruction that was fetched last, its place where that is known, and the line of the source. */
    function instructionOf(step, place, listing) {
        const latches = step.votes.get(3);
        if (!latches) return null;
        return { ...named(latches[0]), place, line: Listing.lineAt(listing, place, Latches.syllable(latches[0])) };
    }

    /** The place that a fetch was from, with its syllable; else the one before. */
    function placeAfter(step, place) {
        if (step.exchange?.kind !== 'FETCH') return place;
        const [bank, sector, location] = step.exchange.address.split(' ');
        return `${bank} ${sector} ${Latches.syllableBit(step.votes.get(2)[0])} ${location}`;
    }

    /** The fault lines that act in a step. */
    const faultsAt = (deck, step) => deck.faults.filter((it) => Faults.actsIn(it, step, step));

    /** Goes through the steps, and keeps what a step alone doesn't tell. */
    class Walk {
        constructor(trace, deck, listing, earlier) {
            const { damaged, selected, log } = earlier ?? {};
            Object.assign(this, { trace, deck, listing, place: null, before: null, log: log ?? [], known: new Map(), selected: new Map(selected) });
            this.keeper = new Cells.Keeper(deck.faults, deck.simplex, damaged);
            this.knowsSelection = selected !== undefined || trace.steps[0]?.number === 0;
        }

        /** The twin that a read is answered by, where it can be told: the other one than was repaired by it, else the selected one. */
        answering(step) {
            const { exchange, repair } = step;
            if (!exchange?.address || exchange.kind === 'STORE') return null;
            const pair = exchange.address[0];
            if (repair?.switched) this.selected.set(pair, 1 - repair.twin);
            if (repair) return 1 - repair.twin;
            return this.knowsSelection ? this.selected.get(pair) ?? 0 : null;
        }

        /** What was last read or stored at each place: the word, and the instruction where it was fetched. */
        learn({ exchange, votes }) {
            if (!exchange?.address) return;
            const instruction = exchange.kind === 'FETCH' ? named(votes.get(3)[0]) : null;
            this.known = new Map(this.known).set(Cells.placeOf(exchange.address), { word: exchange.word, instruction });
        }

        /** How many twins a store goes to: those that hold the address and aren't dead. */
        stored({ exchange }, { dead }) {
            if (exchange?.kind !== 'STORE') return 0;
            const pair = Cells.placeOf(exchange.address)[0];
            return Cells.holdersOf(exchange.address, this.deck.simplex).filter((twin) => !dead[twin].has(pair)).length;
        }

        moment(step) {
            const cells = this.keeper.enter(step.number);
            const answering = this.answering(step);
            this.keeper.leave(step);
            this.place = placeAfter(step, this.place);
            this.learn(step);
            if (step.exchange?.port) this.log = [...this.log, { ...step.exchange, step: step.number }];
            const made = {
                step: step.number, made: true, end: null, cells, answering,
                votes: step.votes, votesBefore: this.before?.votes ?? null, changed: step.changed,
                lamps: lampsOf(step, this.before), wrong: step.wrong, differing: step.differing,
                exchange: step.exchange, repair: step.repair, stored: this.stored(step, cells), log: this.log, known: this.known,
                faults: faultsAt(this.deck, step.number), instruction: instructionOf(step, this.place, this.listing),
            };
            this.before = step;
            return made;
        }
    }

    /** The faults on copies that act in a step. */
    const wrongAt = (deck, step) => new Set(faultsAt(deck, step).filter((it) => it.module).map((it) => keyOf(it.module, it.copy)));

    /** The moment of a step that was begun and not made: nothing has moved, and the copies are shown that the script makes wrong. */
    function lastMoment(walk, deck, end) {
        const wrong = wrongAt(deck, end.step);
        const lamps = new Map(COPIES.map((key) => [key, wrong.has(key) ? 'hurt' : 'well']));
        const votes = walk.before?.votes ?? new Map();
        return {
            step: end.step, made: false, end, cells: walk.keeper.enter(end.step), answering: null,
            votes, votesBefore: votes, changed: new Set(), lamps, wrong, differing: new Map(),
            exchange: null, repair: null, stored: 0, log: walk.log, known: walk.known, faults: faultsAt(deck, end.step),
            instruction: walk.before ? instructionOf(walk.before, walk.place, walk.listing) : null,
        };
    }

    const isBegunOnly = (end) => NOT_MADE.includes(end.kind) || (end.kind === 'stopped' && end.by === 'MEMORY');

    /** All moments of a trace. Of the deck its faults and simplex pairs are asked; a listing may be none. Where the trace doesn't begin with the
     * run, `earlier` may tell what stands when it begins: the damaged places of each twin, the selected twin of each pair, the exchanges of ports. */
    function of(trace, deck, listing = null, earlier = null) {
        const walk = new Walk(trace, deck, listing, earlier);
        const found = trace.steps.map((it) => walk.moment(it));
        if (trace.end && isBegunOnly(trace.end)) return [...found, lastMoment(walk, deck, trace.end)];
        if (trace.end && found.length > 0) found.at(-1).end = trace.end;
        return found;
    }

    return { of };
})();

'use strict';

/** A flight under some faults, as lvdc-worker tells of it: its report, the words that it sends, and its steps, which are asked for as they are wanted.
 * Where its faults end the judged run, it is the run through every fault that is shown. */
class Flown {
    static BLOCK = 240;

    static PORT = '017';

    constructor(text, report, through) {
        Object.assign(this, { text, report, through, blocks: new Map() });
        const { log } = through ?? report;
        this.sent = log.filter((it) => !it.reading && it.port === Flown.PORT)
            .map((it) => ({ step: Parts.lastStepOf(it.time), number: FlightSaying.numberOf(it.word) }));
    }

    /** The flight of a deck with these fault lines. */
    static async of(deck, faults) {
        const text = LabDeck.text(deck, faults, deck.count);
        const report = await Flown.reportOf(['run'], text);
        const isEndedByFaults = report.end?.kind === 'logic' || report.end?.kind === 'memory';
        return new Flown(text, report, isEndedByFaults ? await Flown.reportOf(['run', '--through'], text) : null);
    }

    static async reportOf(words, text) {
        const answer = await Asking.ask(words, text);
        if (answer.text.startsWith('REFUSED ')) throw new Error('lab.unread');
        return Report.read(answer.text);
    }

    /** Asks for the steps around a step, unless they are there. */
    async load(step) {
        const first = step - step % Flown.BLOCK;
        if (this.blocks.has(first)) return;
        const flags = this.through ? ['--through'] : [];
        const answer = await Asking.ask(['trace', ...flags, first, Flown.BLOCK], this.text);
        this.blocks.set(first, new Map(Trace.read(answer.text).steps.map((it) => [it.number, it])));
    }

    /** A step, where it was asked for and made. */
    step(number) { return this.blocks.get(number - number % Flown.BLOCK)?.get(number) ?? null; }

    /** The words that were sent up to a step. */
    sentBy(step) { return this.sent.filter((it) => it.step <= step); }

    /** The index of the first word that isn't that of a healthy flight, or −1: another number, at another time, or none. */
    firstWrong(healthy) {
        const length = Math.max(this.sent.length, healthy.sent.length);
        const isSame = (one, other) => one !== undefined && other !== undefined && one.step === other.step && one.number === other.number;
        return Array.from({ length }).findIndex((_, at) => !isSame(this.sent[at], healthy.sent[at]));
    }
}

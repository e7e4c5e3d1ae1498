'use strict';

/** The lab's page: a program, the machine at one of its steps, and what a visitor does to it. */
class LabPage {
    static FIRST_PROGRAM = 'telemetry';

    /** A step of the first program in which two copies of any module, if they lie, send another word; `clients/view/tests/lab_pairs.py` tries it. */
    static FIRST_STEP = 4;

    static STEPS_FOR_PLACES = 6000;

    static MOST_TIMES = 100000;

    static PACE = 2600;

    constructor(language) {
        Object.assign(this, { sight: new LabSight(language), session: null, listing: null, programs: [], asking: 0, turn: 0, player: null });
        this.forget();
    }

    /** Forgets what was asked of the deck before; whatever is still asked of it comes too late. */
    forget() {
        this.turn += 1;
        Object.assign(this, { frame: null, outcome: null, what: null, through: false, seeks: 0 });
    }

    // ---- beginning

    begin() {
        this.sight.translate();
        return this.guarded(async () => {
            this.programs = await Asking.programs();
            this.sight.programs(this.programs.map((it) => it.name));
            await this.choose(Math.max(0, this.programs.findIndex((it) => it.name === LabPage.FIRST_PROGRAM)));
        });
    }

    /** Begins as for the next visitor: all that the one before has chosen is forgotten. */
    beginAgain() {
        this.sight.reset();
        this.useOctal(false);
        return this.begin();
    }

    choose(at) {
        LabSight.place('program').value = String(at);
        return this.use(this.programs[at].deck);
    }

    /** Begins with the text of a deck, and learns at first which cells its program has. */
    async use(text) {
        const session = LabSession.of(text);
        this.rest();
        if (!session) {
            this.fail('lab.nodeck');
            return;
        }
        this.forget();
        Object.assign(this, { session, step: LabPage.FIRST_STEP, faults: [] });
        await this.guarded(async () => {
            await this.learnProgram(session);
            if (this.session === session) await this.refresh();
        });
    }

    async learnProgram(session) {
        const { text, deck: { source } } = session;
        const asm = source === null ? null : Asking.ask(['asm'], source);
        const trace = Asking.ask(['trace', 0, LabPage.STEPS_FOR_PLACES], text);
        const [report, told, listing] = await Promise.all([Asking.ask(['run'], text), trace, asm]);
        if (this.session !== session) return;
        const deck = Deck.read(text);
        this.listing = listing?.status === 0 ? Listing.read(listing.text) : null;
        const places = Cells.placesOf(Report.read(report.text), deck, Trace.read(told.text));
        this.sight.build(places, deck.simplex, (kind, it) => this.press(kind, it));
    }

    // ---- what a visitor does

    press(kind, it) {
        const lasting = LabSight.place('good').checked;
        if (kind === 'lamp') return this.pressLamp(LabSight.place('kind').value, it, lasting);
        return this.hurt(Hurts.cell(it, this.step, lasting, this.sight.wordAt(it.place)));
    }

    /** A copy is hurt in the step that is shown now; where it is to lie, it is asked for the lie first. */
    pressLamp(kind, it, lasting) {
        const began = performance.now();
        const { step, session } = this;
        return this.guarded(async () => {
            const lie = kind === 'FLIP' ? await Lies.chosen(session, it.module, step, lasting) : '';
            if (session !== this.session) return;
            session.hurt(Hurts.copy(kind, it, step, lasting, lie), step);
            await this.changed(began);
        });
    }

    hurt(lines) {
        this.session.hurt(lines, this.step);
        return this.changed();
    }

    undo() {
        this.session.undo();
        return this.changed();
    }

    mend(at) {
        this.session.mend(at);
        return this.changed();
    }

    startAgain() {
        this.session.startAgain();
        this.step = 0;
        return this.changed();
    }

    /** Takes another count of instruction times, where it is one. */
    take(count) {
        if (!Number.isInteger(count) || count < 1 || count > LabPage.MOST_TIMES) {
            this.sight.session(this.session, (at) => this.mend(at));
            return;
        }
        this.session.take(count);
        this.changed();
    }

    /** The deck is another one now: what becomes of it is asked anew, and how long the answer takes is measured. */
    changed(began = performance.now()) {
        this.forget();
        this.rest();
        return this.guarded(async () => {
            if (await this.refresh()) LabPage.measure(began);
        });
    }

    /** Notes how long an answer took, up to the frame of the screen that shows it. */
    static measure(began) {
        window.requestAnimationFrame(() => window.setTimeout(() => performance.measure('answer', { start: began })));
    }

    // ---- asking

    /** Does something that asks. Where there is no answer that is told, unless something else was asked since. */
    async guarded(asks) {
        const { turn } = this;
        this.asking += 1;
        this.sight.busy(true);
        try {
            await asks();
        } catch (error) {
            if (!error.message.startsWith('lab.')) throw error;
            if (turn === this.turn) this.fail(error.message);
            if (error.message === 'lab.gone') Asking.comeBack();
        } finally {
            this.asking -= 1;
            this.sight.busy(this.asking > 0);
        }
    }

    /** Asks what becomes of the deck: the moments around the step, and the outcome, each shown as soon as it is there. Tells whether it is
     * the deck still. */
    async refresh() {
        const { turn } = this;
        this.faults = Deck.read(this.session.text).faults;
        this.sight.session(this.session, (at) => this.mend(at));
        this.showTime();
        await Promise.all([this.seek(this.step, false), this.judge(turn)]);
        if (turn === this.turn && this.step > this.last) await this.seek(this.last, false);
        return turn === this.turn;
    }

    async judge(turn) {
        const { text, faults } = this.session;
        const [run, form] = await Promise.all([Asking.ask(['run'], text), Asking.ask(['form'], text)]);
        if (turn !== this.turn) return;
        this.outcome = { ...LabOutcome.of(run, form, faults.length), texts: [run.text, form.text] };
        this.showOutcome();
    }

    /** Goes on through every fault, or back to the judged run. */
    switchTo(through) {
        this.turn += 1;
        Object.assign(this, { through, frame: null });
        const { turn, session } = this;
        return this.guarded(async () => {
            const [other, healthy] = await Promise.all([Asking.ask(['run', '--through'], session.text), Asking.ask(['run'], session.healthyText)]);
            const what = { other: LabOutcome.reportOf(other), healthy: LabOutcome.reportOf(healthy) };
            what.parting = LabOutcome.parting(what.healthy, what.other);
            if (LabOutcome.isSame(what.parting)) what.parting.why = await Harmless.why(session, Deck.read(session.text).faults);
            if (turn !== this.turn) return;
            this.what = what;
            this.showOutcome();
            if (through) this.sight.tabs.showFor('outcome');
            await this.seek(this.step, false);
        });
    }

    /** Tells why there is no answer, by a key of `Words`; what is none is a fault of this page. */
    fail(why) {
        this.outcome = { kind: 'unknown', why, texts: [] };
        this.through = false;
        this.showOutcome();
    }

    // ---- time

    /** The end of the run that is looked at, where it is known. */
    get end() { return (this.through ? this.what?.other : this.outcome?.report)?.end ?? null; }

    /** The last step that can be looked at. */
    get last() { return Math.max(0, this.end?.step ?? this.session.steps - 1); }

    /** Shows a step: from the moments that are there, else it asks for those around it. */
    async seek(step, moving) {
        this.step = Math.max(0, Math.min(step, this.last));
        if (this.frame && LabFrame.has(this.frame, this.step)) {
            this.show(moving);
            return;
        }
        this.seeks += 1;
        const { turn, seeks, through } = this;
        const frame = await LabFrame.around(this.session.text, this.step, through, this.listing);
        if (turn !== this.turn || seeks !== this.seeks) return;
        this.frame = frame;
        this.show(false);
    }

    goTo(step, moving = false) { return this.guarded(() => this.seek(step, moving)); }

    /** Goes on by itself up to the end, or stops doing so. */
    play() {
        if (this.player !== null) {
            this.rest();
            return;
        }
        if (this.step >= this.last) this.goTo(0);
        this.player = window.setInterval(() => this.playOn(), LabPage.PACE);
        this.sight.playing(true);
    }

    playOn() {
        if (this.step >= this.last) this.rest();
        else this.goTo(this.step + 1, true);
    }

    rest() {
        window.clearInterval(this.player);
        this.player = null;
        this.sight.playing(false);
    }

    // ---- showing

    show(moving) {
        const moment = LabFrame.nearest(this.frame, this.step);
        if (moment) this.sight.moment(moment, this.faults, this.last, moving);
        this.showTime();
    }

    showTime() { this.sight.time(this.step, this.session.steps - 1, this.faults, this.end); }

    showOutcome() {
        const { outcome, sight, what } = this;
        const isNot = ['logic', 'memory'].includes(outcome.kind);
        if (this.through) sight.whatIf(outcome.kind, what, () => this.switchTo(false));
        else sight.outcome(outcome, this.session?.faults ?? [], isNot && (() => this.switchTo(true)), () => this.goTo(outcome.report.end.step));
        if (this.session) this.showTime();
    }

    /** Speaks another language, or spells in another way. */
    speak(language, octal = this.sight.words.octal) {
        this.sight.speak(language, octal);
        this.rest();
        if (!this.session) return;
        this.sight.session(this.session, (at) => this.mend(at));
        if (this.outcome) this.showOutcome();
        if (this.frame) this.show(false);
    }

    useOctal(octal) { this.speak(this.sight.words.language, octal); }
}

'use strict';

/** A flight and what visitors do to it. Its time is counted in steps of the machine; what is shown of each is what lvdc-worker told. While nobody
 * touches anything it shows itself: it flies, and now and then something is struck. */
class Flight {
    static PROGRAM = 'ascent';

    static STEPS_PER_SECOND = 60;

    static FRAME = 150;

    static GUESS_WITHIN = 7000;

    static VOTE = 900;

    static RUN = 1600;

    static SEEN_FOR = 9000;

    static TRY_AGAIN = 3000;

    /** While it shows itself: when the first strike comes, and how far the others are apart, in milliseconds. */
    static FIRST_STRIKE = 2500;

    static STRIKE_EVERY = 18000;

    constructor(language, idle) {
        this.sight = new FlightSight(language, (what, button) => this.touch(what, button));
        Object.assign(this, { language, idle, state: 'waiting', turn: 0, alone: true, strikes: 0 });
    }

    // ---- beginning

    async begin() {
        const programs = await Asking.programs();
        this.deck = LabDeck.read(programs.find((it) => it.name === Flight.PROGRAM).deck);
        this.healthy = await Flown.of(this.deck, []);
        this.sight.sky.plan(this.healthy.sent);
        this.timer = window.setInterval(() => this.guarded(() => this.tick()), Flight.FRAME);
        this.watch();
        await this.launch();
    }

    /** Begins a flight. */
    async launch() {
        this.turn += 1;
        this.shown = null;
        Object.assign(this, { state: 'flying', faults: [], struck: [], flown: this.healthy, verdict: null, guess: null, at: 0, last: performance.now() });
        this.nextStrike = performance.now() + Flight.FIRST_STRIKE;
        await this.healthy.load(0);
        this.invite();
        this.draw();
    }

    /** What is said while all is well. */
    invite() {
        const told = (words) => ({ title: words('flight.touch'), more: [words('flight.model')] });
        this.sight.say('flying', told, [['flight.launch', () => this.act(() => this.launch())]]);
    }

    /** Does something that asks; where there is no answer that is told, and a flight begins anew, or the page looks for its server. */
    async guarded(does) {
        try {
            await does();
        } catch (error) {
            if (!error.message.startsWith('lab.')) throw error;
            this.state = 'waiting';
            this.sight.say('unknown', (words) => ({ title: words('lab.unknown.title'), more: [words('flight.gone')] }));
            if (error.message === 'lab.gone') Asking.comeBack();
            else this.later(Flight.TRY_AGAIN, () => this.launch());
        }
    }

    // ---- time

    get steps() { return Parts.firstStepOf(this.deck.count); }

    /** The step that is shown. */
    get step() { return Math.min(Math.floor(this.at), this.steps - 1); }

    async tick() {
        const now = performance.now();
        if (this.state === 'flying' || this.state === 'lost') this.at += (now - this.last) / 1000 * Flight.STEPS_PER_SECOND;
        this.last = now;
        if (this.state === 'waiting') return;
        await Promise.all([this.flown.load(this.step), this.healthy.load(this.step)]);
        this.draw();
        if (this.at >= this.steps && (this.state === 'flying' || this.state === 'lost')) this.land();
        else if (this.alone && this.state === 'flying' && now > this.nextStrike) this.strikeAlone();
    }

    /** What was hit and is still wrong in the step that is shown. */
    get struckNow() {
        const acting = this.struck.filter((it) => it.twin !== undefined || (it.step <= this.step && this.step < it.step + Strikes.STEPS));
        return new Set(acting.map((it) => (it.module ? Trace.keyOf(it.module, it.copy) : `memory-${it.twin}`)));
    }

    draw() {
        const { flown, healthy, step } = this;
        const shown = [flown.text, flown.step(step) !== null, step, this.sight.words.language].join();
        if (shown === this.shown) return;
        this.shown = shown;
        const sent = flown.sentBy(step);
        const wrong = flown.through ? flown.firstWrong(healthy) : -1;
        const due = healthy.sentBy(step).length;
        this.sight.show({
            step: flown.step(step), healthy: healthy.step(step), struck: this.struckNow, sent, wrong, second: due,
            silent: wrong >= 0 && due > wrong + 1 && sent.length <= wrong,
        });
        if (this.state === 'flying' && sent.length > this.heard) this.sight.sound.word(sent.at(-1).number);
        this.heard = sent.length;
    }

    /** A flight is over. */
    land() {
        this.state = 'landed';
        const { flown, healthy, struck } = this;
        const told = (words) => ({ ...Verdict.of(flown, healthy, struck, words), title: words('flight.landed', { count: flown.sent.length }) });
        if (told(this.sight.words).kind === 'flew') this.sight.say('flew', told, this.again());
        this.later(Flight.SEEN_FOR, () => this.alone && this.launch());
    }

    again() { return [['flight.again', () => this.act(() => this.launch())]]; }

    /** Does something after a while, unless another flight has begun. */
    later(milliseconds, does) {
        const { turn } = this;
        window.setTimeout(() => { if (turn === this.turn) this.guarded(does); }, milliseconds);
    }

    // ---- striking

    /** A visitor does something. */
    act(does) {
        this.alone = false;
        return this.guarded(does);
    }

    /** A visitor strikes. What is broken already stays so; a flight that is over begins anew, and so does one that shows itself just then. */
    touch(what, button) {
        const wasAlone = this.alone;
        this.alone = false;
        // a shake that was begun before begins anew
        button.classList.remove('hit');
        void button.offsetWidth;
        button.classList.add('hit');
        this.sight.sound.strike();
        return this.guarded(async () => {
            const isOver = ['lost', 'landed', 'waiting'].includes(this.state) || (wasAlone && this.state !== 'flying');
            if (isOver) await this.launch();
            if (this.state !== 'shown') await this.strike(what);
        });
    }

    /** While nobody is there: a lie that is outvoted, and in turn two lies of one module. */
    async strikeAlone() {
        this.strikes += 1;
        this.nextStrike = performance.now() + Flight.STRIKE_EVERY;
        const module = 1 + this.strikes * 4 % Parts.MODULES.length;
        const copies = this.strikes % 2 === 1 ? [1 + this.strikes % 3] : [1, 2];
        for (const copy of copies) await this.strike({ module, copy });
        this.later(Flight.VOTE, () => this.reveal());
    }

    /** Something is struck in the step that is shown: time stands still, and what becomes of it is asked. */
    async strike(what) {
        const step = this.state === 'asked' ? this.struckAt : this.step + 1;
        const isBroken = this.struck.some((it) => it.module === what.module && it.copy === what.copy && it.twin === what.twin
            && (it.twin !== undefined || it.step + Strikes.STEPS > step));
        if (isBroken) return;
        Object.assign(this, { state: 'asked', struckAt: step, at: step, struck: [...this.struck, { ...what, step }] });
        this.faults = [...this.faults, ...(what.module ? Strikes.copy(what.module, what.copy, step) : Strikes.memory(what.twin, step))];
        const { turn, faults } = this;
        const began = performance.now();
        const flown = await Flown.of(this.deck, faults);
        await Promise.all([flown.load(step), this.healthy.load(step)]);
        if (turn !== this.turn || faults !== this.faults) return;
        this.flown = flown;
        this.draw();
        performance.measure('answer', { start: began });
        if (!this.alone) this.ask(what);
    }

    /** The strikes that are looked at together. */
    get struckTogether() { return this.struck.filter((it) => it.step === this.struckAt); }

    /** Asks a visitor what will become of it. */
    ask(what) {
        const said = (words) => (what.module ? words('flight.struck', { copy: what.copy, module: words(`module.${what.module}`) })
            : words('flight.struck.memory', { twin: what.twin + 1 }));
        const told = (words) => ({ title: words('flight.ask'), more: [said(words), words('flight.more')] });
        const guess = (fliesOn) => () => this.act(() => { this.guess = fliesOn; return this.reveal(); });
        this.sight.say('asked', told, [['flight.yes', guess(true)], ['flight.no', guess(false)]]);
        window.clearTimeout(this.asking);
        this.asking = window.setTimeout(() => this.guarded(() => this.reveal()), Flight.GUESS_WITHIN);
    }

    // ---- seeing what becomes of it

    /** The votes travel, the voters decide; where two lies win, the error runs to the rocket. */
    async reveal() {
        if (this.state !== 'asked') return;
        const { turn, sight, flown, healthy } = this;
        window.clearTimeout(this.asking);
        this.state = 'shown';
        sight.say('shown', (words) => ({ title: words('flight.vote') }));
        const modules = [...new Set(this.struckTogether.map((it) => it.module).filter((it) => it))];
        await sight.votes(modules, Flight.VOTE);
        if (turn !== this.turn) return;
        const { struckTogether } = this;
        const verdictIn = (words) => Verdict.of(flown, healthy, struckTogether, words);
        const { kind, at } = verdictIn(sight.words);
        if (kind === 'broke') await this.breakUp(at, flown.report.end.module);
        if (turn !== this.turn) return;
        this.tell(kind, verdictIn);
    }

    /** Goes on to the first wrong word, or to the time at which it is due, while the error runs to the rocket. */
    async breakUp(at, module) {
        const { flown, healthy } = this;
        this.sight.sound.broke();
        await this.sight.error(module, Flight.RUN);
        const step = Math.max(this.at, Math.min(flown.sent[at]?.step ?? Infinity, healthy.sent[at]?.step ?? Infinity));
        this.at = Math.min(step, this.steps - 1);
        await Promise.all([flown.load(this.step), healthy.load(this.step)]);
        this.draw();
    }

    /** Tells the verdict, and whether a visitor has guessed it. */
    tell(kind, verdictIn) {
        const { sight, guess } = this;
        const guessed = guess === null ? [] : [guess === (kind !== 'broke') ? 'flight.guess.right' : 'flight.guess.wrong'];
        const told = (words) => {
            const { title, more } = verdictIn(words);
            return { title, more: [...guessed.map((it) => words(it)), ...more] };
        };
        this.guess = null;
        this.state = kind === 'flew' ? 'flying' : 'lost';
        if (kind === 'flew') sight.sound.flew();
        sight.say(kind, told, this.again());
        if (kind === 'flew') this.later(Flight.SEEN_FOR, () => { if (this.state === 'flying') this.invite(); });
        else this.later(Flight.SEEN_FOR, () => { if (this.alone) this.launch(); });
    }

    // ---- nobody there

    /** Begins as for the next visitor where nobody has touched anything for a while. */
    watch() {
        window.clearTimeout(this.waiting);
        this.waiting = window.setTimeout(() => this.reset(), this.idle * 1000);
    }

    reset() {
        this.watch();
        if (this.alone && this.sight.words.language === this.language) return;
        this.alone = true;
        FlightSight.place('told').close();
        this.useSound(false);
        this.sight.speak(this.language);
        window.scrollTo(0, 0);
        this.guarded(() => this.launch());
    }

    useSound(on) {
        this.sight.sound.turn(on);
        FlightSight.place('sound').setAttribute('aria-pressed', String(on));
    }

    speak(language) {
        this.sight.speak(language);
        if (this.state !== 'waiting') this.draw();
    }
}

'use strict';

/** An exhibit: the drawing with its steps, what a run came to, what would have happened, and a place to break the machine. */
const ExhibitView = (() => {
    const { html, button, section, plain } = Element;
    const { keyOf } = Trace;

    /** A run as it is drawn: its trace, its deck and its moments. */
    function runOf(traceText, deck, listing) {
        const trace = Trace.read(traceText);
        return { trace, deck, moments: Moments.of(trace, deck, listing) };
    }

    /** All that an exhibit's texts say. */
    function read(exhibit) {
        const deck = Deck.read(exhibit.deck);
        const listing = exhibit.listing ? Listing.read(exhibit.listing) : null;
        const healed = { ...deck, faults: [] };
        const found = {
            deck, report: Report.read(exhibit.report), run: runOf(exhibit.trace, deck, listing),
            healthy: runOf(exhibit.healthy.trace, healed, listing), healthyReport: Report.read(exhibit.healthy.report),
            through: exhibit.through ? runOf(exhibit.through.trace, deck, listing) : null,
            answers: exhibit.answers ? new Answers.Book(exhibit.answers) : null,
            isSame: exhibit.through ? Outcome.isSame(exhibit.through.report, exhibit.healthy.report) : null,
            isForm: exhibit.form === 'FORM YES\n',
        };
        const traces = [found.run, found.healthy, found.through].filter((it) => it !== null).map((it) => it.trace);
        return { ...found, listing, places: Cells.placesOf(found.report, deck, ...traces) };
    }

    /** What the three copies of a module hold in a moment, as the answers of a session have it. */
    function copiesOf(moment, module) {
        const vote = moment.votes.get(module);
        return vote ? Parts.COPIES.map((copy) => ({ module, copy, latches: moment.differing.get(keyOf(module, copy)) ?? vote })) : null;
    }

    class Exhibit {
        constructor(found, words) {
            Object.assign(this, { found, words, module: null, mode: 'run', hurt: [] });
            this.stage = new Stage.Stage({ words, places: found.places, simplex: found.deck.simplex });
            this.notice = html('div', { class: 'notice', role: 'status' });
            this.stage.between.append(this.notice);
            this.panel = html('div', { class: 'panel' });
            this.beside = html('div', { class: 'beside' });
            this.modes = html('p', { class: 'buttons modes' });
            this.stage.element.addEventListener('moment', () => this.arrive());
            this.stage.drawing.element.addEventListener('lamp', (event) => this.touch(event.detail));
        }

        get element() { return html('div', { class: 'exhibit' }, this.modes, this.stage.element, this.beside, this.panel); }

        // ---- modes

        buildModes() {
            const there = ['run', ...(this.found.through ? ['through'] : []), ...(this.found.answers?.isWhole ? ['break'] : [])];
            this.modes.hidden = there.length === 1;
            this.modes.replaceChildren(...there.map((it) => {
                const made = button(this.words(`mode.${it}`), this.words(`mode.${it}`), () => this.turnTo(it));
                made.dataset.mode = it;
                made.setAttribute('aria-pressed', String(it === this.mode));
                return made;
            }));
        }

        turnTo(mode) {
            Object.assign(this, { mode, module: null, hurt: [] });
            this.stage.happens.hidden = mode === 'break';
            this.buildModes();
            this.stage.drawing.mark([]);
            this.stage.drawing.choose(null);
            ({ run: () => this.turnToRun(), through: () => this.turnToThrough(), break: () => this.turnToBreak() })[mode]();
        }

        turnToRun() {
            this.beside.replaceChildren();
            this.stage.use(this.found.run.moments);
        }

        /** The run through every fault, from the step that couldn't be withstood. */
        turnToThrough() {
            const { through, healthy, run, isSame } = this.found;
            const outcome = Outcome.of(healthy.trace, through.trace);
            this.beside.replaceChildren(OutcomeView.of(outcome, isSame, this.words));
            const at = through.moments.findIndex((it) => it.step === run.trace.end?.step);
            this.stage.use(through.moments, Math.max(0, at));
        }

        /** The healthy run at the steps that were asked about. */
        turnToBreak() {
            const { healthy, answers } = this.found;
            this.beside.replaceChildren();
            this.stage.use(healthy.moments.filter((it) => answers.steps.includes(it.step)));
        }

        // ---- following

        /** Another moment is shown; where the run ended by a module, the panel opens there. */
        arrive() {
            const { moment } = this.stage;
            if (this.mode === 'run' && this.module === null && this.isInadmissible(moment)) this.module = moment.end.module ?? null;
            this.follow();
        }

        /** What stands around the drawing in a moment. */
        follow() {
            this.notice.replaceChildren(...this.noticeParts());
            this.drawPanel();
        }

        isInadmissible(moment) { return moment?.end?.kind === 'logic' || moment?.end?.kind === 'memory'; }

        noticeParts() {
            if (this.mode === 'break') return this.breakParts();
            if (this.mode === 'through') return [plain(this.words('through.now'))];
            return this.stage.moment === this.stage.moments.at(-1) ? this.lastParts(this.stage.moment) : [];
        }

        /** What the run came to, at its last moment: that it goes on, that it can't be relied on, or that its results are right. */
        lastParts(moment) {
            const { run, report, isForm } = this.found;
            if (run.trace.more) return [plain(this.words('end.goes'))];
            if (this.isInadmissible(moment)) return this.inadmissibleParts(moment);
            return EndView.worth(report, isForm && this.found.deck.faults.length > 0, this.words);
        }

        inadmissibleParts(moment) {
            const see = button(this.words('mode.through'), this.words('mode.through'), () => this.turnTo('through'));
            const buttons = this.found.through ? [html('p', { class: 'buttons' }, see)] : [];
            return [html('p', { class: 'sentence' }, Saying.inadmissible(moment, this.words)), ...buttons];
        }

        breakParts() {
            if (this.hurt.length === 0) return [plain(this.words('break.begin'))];
            const row = this.found.answers.row(this.stage.moment.step, this.hurt);
            const again = button(this.words('break.again'), this.words('break.again'), () => this.turnTo('break'));
            const [first, ...others] = Answers.saying(row, this.hurt, this.words);
            const line = this.stage.words.octal ? [html('p', { class: 'small' }, html('code', {}, row.line))] : [];
            return [html('p', { class: 'sentence', 'data-verdict': row.verdict }, first), ...others.map((it) => html('p', {}, it)), ...line,
                html('p', { class: 'buttons' }, again)];
        }

        // ---- touching

        /** A lamp was pressed: to break its copy, or to see what the copies of its module say; a second press lets go of it. */
        touch({ module, copy }) {
            if (this.mode === 'break') {
                this.hurt = Answers.touched(this.hurt, keyOf(module, copy));
                this.stage.drawing.mark(this.hurt);
            } else this.module = this.module === module ? null : module;
            this.follow();
        }

        /** The moment whose copies are shown: of a step that wasn't made, that of the run through every fault. */
        momentShown() {
            const { moment } = this.stage;
            return moment.made ? moment : this.found.through?.moments.find((it) => it.step === moment.step) ?? moment;
        }

        drawPanel() {
            this.stage.drawing.choose(this.module);
            const copies = this.module === null ? null : copiesOf(this.momentShown(), this.module);
            this.panel.replaceChildren(...(copies ? [CopiesView.of(Parts.module(this.module), copies)] : []));
        }
    }

    const SENTENCE = 'Move through the run step by step. Touch a lamp to see what the three copies of its part say.';

    /** The section of an exhibit. */
    function of(found, words) {
        const exhibit = new Exhibit(found, words);
        const made = section('moments', 'Step by step', '', exhibit.element, plain(SENTENCE));
        exhibit.turnTo('run');
        return { made, exhibit };
    }

    /** The section of a trace alone, with its deck and its report where these were given. */
    function ofTrace(trace, report, deck) {
        const moments = Moments.of(trace, deck);
        if (moments.length === 0) return section('moments', 'Step by step', 'The trace has no step.');
        const found = { deck, report, run: { trace, deck, moments }, through: null, answers: null, isForm: false, places: Cells.placesOf(report, deck, trace) };
        return of(found, Words.of('en')).made;
    }

    return { read, of, ofTrace };
})();

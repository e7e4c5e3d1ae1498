'use strict';

/** A kiosk: five screens that begin by themselves and come back when nobody is there. It has no way out of the page. */
const Kiosk = (() => {
    const { html, button } = Element;
    const { keyOf } = Trace;
    const IDLE_SECONDS = 60;
    const BEFORE = 4;
    const AFTER = 5;
    const NUMBERS_TOLD = 3;

    /** A chapter of the story: its moments, and those through every fault. */
    function chapterOf(chapter, listing) {
        const deck = Deck.read(chapter.deck);
        const momentsOf = (text) => Moments.of(Trace.read(text), deck, listing);
        const through = Trace.read(chapter.through);
        const report = Report.read(chapter.report);
        return { deck, report, step: chapter.step, moments: momentsOf(chapter.trace), through: momentsOf(chapter.through), throughTrace: through };
    }

    /** The moments around a step. */
    const around = (moments, step) => moments.filter((it) => it.step >= step - BEFORE && it.step <= step + AFTER);

    /** The first numbers that a run sends out, or stores where it sends none. */
    function numbersOf(trace) {
        const words = (kind) => trace.steps.filter((it) => it.exchange?.kind === kind).map((it) => Latches.decimal(it.exchange.word));
        const sent = words('OUT');
        return (sent.length > 0 ? sent : words('STORE')).slice(0, NUMBERS_TOLD);
    }

    /** The words that a run sends, by its report. */
    const sentIn = (report) => report.log.filter((it) => !it.reading);

    function largeButton(words, act) {
        const made = button(words, '', act);
        made.className = 'large';
        return made;
    }

    class Kiosk {
        constructor(found, story, idle) {
            const chapters = ['one', 'two', 'cell'].map((it) => [it, chapterOf(story[it], found.listing)]);
            Object.assign(this, { found, step: story.step, turns: story.turns, story: Object.fromEntries(chapters), idle, screen: 1, hurt: [], timer: null });
            this.screens = found.answers?.isWhole ? SCREENS : SCREENS.slice(0, -1);
            this.first = Words.known(document.documentElement.lang);
            this.words = Words.of(this.first);
            this.stage = new Stage.Stage({ words: this.words, places: found.places, simplex: found.deck.simplex });
            this.stage.drawing.element.addEventListener('lamp', (event) => this.touch(event.detail));
            this.turn = new TurnView.Turn((it) => this.touch(it));
            this.text = html('div', { class: 'kiosk-text', 'aria-live': 'polite' });
            this.head = html('header', { class: 'kiosk-head' });
            this.side = html('aside', { class: 'kiosk-rocket' });
            this.foot = this.footParts();
            const middle = html('div', { class: 'kiosk-middle' }, this.text, this.stage.element, this.turn.element);
            this.element = html('div', { class: 'kiosk' }, this.head, html('div', { class: 'kiosk-main' }, this.side, middle), this.foot);
        }

        // ---- around the screens

        /** All that is said in the language that is chosen. */
        speak(language) {
            this.words = Words.of(language);
            document.documentElement.lang = language;
            this.stage.speak(this.words);
            this.drawHead();
            this.side.replaceChildren(html('p', {}, this.words('kiosk.rocket')), Rocket.of(this.words));
            this.tell();
        }

        drawHead() {
            const languages = Object.entries(Words.LANGUAGES).map(([name, { language }]) => {
                const made = button(language, language, () => this.speak(name));
                made.setAttribute('lang', name);
                made.setAttribute('aria-pressed', String(name === this.words.language));
                return made;
            });
            this.head.replaceChildren(html('h1', {}, this.words('kiosk.title')), html('p', { class: 'buttons' }, ...languages));
        }

        /** The foot is made once, so that a button which is pressed by a key keeps the focus. */
        footParts() {
            this.before = largeButton('', () => this.turnTo(this.screen - 1));
            this.next = largeButton('', () => this.turnTo(this.screen % this.screens.length + 1));
            this.next.classList.add('next');
            this.number = html('p', { class: 'screen-number' });
            this.history = html('p', { class: 'history' });
            return html('footer', { class: 'kiosk-foot' }, this.before, this.stage.controls, this.number, this.next, this.history);
        }

        drawFoot() {
            const { words, screen } = this;
            const count = this.screens.length;
            this.before.disabled = screen === 1;
            this.before.textContent = words('control.before');
            this.next.textContent = words(screen === count ? 'kiosk.begin' : 'control.next');
            this.number.textContent = words('kiosk.screen', { number: screen, count });
            this.history.textContent = words('history');
        }

        // ---- the screens

        turnTo(screen) {
            Object.assign(this, { screen, hurt: [], sees: false });
            this.stage.drawing.mark([]);
            this.stage.loops = true;
            this.element.dataset.screen = String(screen);
            this.element.classList.toggle('last', screen === this.screens.length);
            this.screens[screen - 1].show(this);
            this.tell();
        }

        /** Shows moments over and over. */
        loop(moments) {
            this.stage.use(moments);
            this.stage.play(0);
        }

        tell() {
            const { words, screen } = this;
            this.drawFoot();
            this.turn.show(this.stage.moment, this.hurt, words);
            this.text.replaceChildren(html('h2', {}, words(`kiosk.${screen}.title`)), ...this.screens[screen - 1].tell(this, words));
        }

        /** What would have happened to two wrong copies. */
        see() {
            this.sees = true;
            const { through, step } = this.story.two;
            this.loop(through.filter((it) => it.step >= step - 1));
            this.tell();
        }

        touch({ module, copy }) {
            if (this.screen !== SCREENS.length) return;
            this.hurt = Answers.touched(this.hurt, keyOf(module, copy));
            showTurn(this);
            this.stage.drawing.mark(this.hurt);
            this.tell();
        }

        /** The copies that a visitor has hurt, as the texts name them. */
        get hurtKey() { return Answers.ordered(this.hurt).join(' '); }

        /** The words that would have been sent, and those that are right, where two copies of a module are hurt; else none. */
        hurtLogs() {
            const report = this.turns?.reports[this.hurtKey];
            return report ? { right: sentIn(this.found.healthyReport), wrong: sentIn(Report.read(report)) } : null;
        }

        // ---- nobody there

        /** Begins anew where nobody has touched anything for a while. */
        watch() {
            window.clearTimeout(this.timer);
            this.timer = window.setTimeout(() => this.begin(), this.idle * 1000);
        }

        begin() {
            this.turnTo(1);
            this.speak(this.first);
            this.watch();
        }
    }

    const paragraph = (words) => html('p', {}, words);
    const strong = (words, verdict) => html('p', { class: 'sentence', 'data-verdict': verdict }, words);

    /** Text, and what stands beside it. */
    const beside = (text, other) => [html('div', { class: 'side-by-text' }, html('div', {}, ...text), other)];

    function tellFirst(kiosk, words) {
        const numbers = numbersOf(kiosk.found.healthy.trace);
        const told = numbers.length > 0 ? [paragraph(words('kiosk.1.numbers', { numbers: numbers.join(', ') }))] : [];
        return [paragraph(words('kiosk.1.text')), ...told];
    }

    function tellOne(kiosk, words) {
        const { deck: { faults: [fault] }, report } = kiosk.story.one;
        const told = words('kiosk.2.text', { copy: fault.copy, module: words(`module.${fault.module}`) });
        return [told, ...Claims.sentences(report, false, words)].map(paragraph);
    }

    /** What the two wrong copies of the story would have sent; where that wasn't asked for, from which step on they would have been wrong. */
    function toldOfTwo({ story: { two }, found, turns }, words) {
        const report = turns?.reports[two.deck.faults.map((it) => keyOf(it.module, it.copy)).join(' ')];
        if (report) return Answers.sent(sentIn(found.healthyReport), sentIn(Report.read(report)), words);
        const outcome = Outcome.of({ steps: found.healthy.trace.steps.slice(0, two.throughTrace.steps.length) }, two.throughTrace);
        return OutcomeView.sentence(outcome, false, words);
    }

    function tellTwo(kiosk, words) {
        if (!kiosk.sees) return beside([paragraph(words('kiosk.3.text'))], largeButton(words('kiosk.3.see'), () => kiosk.see()));
        return [paragraph(words('kiosk.3.seen')), html('p', { class: 'sentence' }, toldOfTwo(kiosk, words))];
    }

    function tellTurn(kiosk, words) {
        if (kiosk.hurt.length === 0) return [paragraph(words('kiosk.5.text'))];
        const row = kiosk.found.answers.row(kiosk.step, kiosk.hurt);
        const [first, ...others] = Answers.saying(row, kiosk.hurt, words, kiosk.hurtLogs());
        const again = largeButton(words('break.again'), () => kiosk.turnTo(SCREENS.length));
        return beside([strong(first, row.verdict), ...others.map(paragraph)], again);
    }

    /** The step of a visitor's turn, with what was hurt in it; else that of the healthy machine. */
    function showTurn(kiosk) {
        const { healthy, listing } = kiosk.found;
        const text = kiosk.turns?.traces[kiosk.hurtKey];
        const hurt = text ? Moments.of(Trace.read(text), healthy.deck, listing) : [];
        kiosk.stage.use(hurt.length > 0 ? hurt : healthy.moments.filter((it) => it.step === kiosk.step));
    }

    const SCREENS = [
        { show: (kiosk) => kiosk.loop(kiosk.found.healthy.moments), tell: tellFirst },
        { show: (kiosk) => kiosk.loop(around(kiosk.story.one.moments, kiosk.story.one.step)), tell: tellOne },
        { show: (kiosk) => kiosk.loop(around(kiosk.story.two.moments, kiosk.story.two.step)), tell: tellTwo },
        { show: (kiosk) => kiosk.loop(around(kiosk.story.cell.moments, kiosk.story.cell.step)), tell: (_, words) => [paragraph(words('kiosk.4.text'))] },
        { show: showTurn, tell: tellTurn },
    ];

    const LEADS_AWAY = /^(F\d+|BrowserBack|BrowserForward|BrowserHome)$/;

    /** Keeps a visitor on the page, as far as a page can: no menus, no dropped files, no keys but those that the page has. */
    function closeWaysOut() {
        for (const name of ['contextmenu', 'dragstart', 'dragover', 'drop']) document.addEventListener(name, (event) => event.preventDefault());
        document.addEventListener('keydown', (event) => {
            if (event.ctrlKey || event.metaKey || event.altKey || LEADS_AWAY.test(event.key)) event.preventDefault();
        });
        document.addEventListener('wheel', (event) => { if (event.ctrlKey) event.preventDefault(); }, { passive: false });
    }

    /** How many seconds without a touch a visitor is taken to be gone: those of the address, else a minute. */
    const idleOf = (parameters) => Number.parseInt(parameters.get('idle'), 10) || IDLE_SECONDS;

    /** Fills the page with the kiosk of an exhibit. */
    function begin(found, story, parameters) {
        document.documentElement.lang = Words.known(parameters.get('lang'), parameters.get('kiosk'), document.documentElement.lang);
        const kiosk = new Kiosk(found, story, idleOf(parameters));
        document.documentElement.classList.add('in-kiosk');
        document.body.replaceChildren(kiosk.element);
        closeWaysOut();
        for (const name of ['pointerdown', 'keydown']) document.addEventListener(name, () => kiosk.watch());
        kiosk.begin();
        return kiosk;
    }

    return { begin };
})();

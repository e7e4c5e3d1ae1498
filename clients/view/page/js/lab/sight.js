'use strict';

/** What the lab's page shows: the drawing of the machine, its time, what it came to and what was broken. It is told what to show, and asks nothing. */
class LabSight {
    constructor(language) {
        Object.assign(this, { words: Words.of(language), drawing: null });
        const { html } = Element;
        const named = ([key, it]) => [html('span', { class: 'lab-whole' }, it.language), html('span', { class: 'lab-short' }, key.toUpperCase())];
        const button = ([key, it]) => html('button', { type: 'button', lang: key, 'aria-label': it.language }, ...named([key, it]));
        LabSight.place('languages').replaceChildren(...Object.entries(Words.LANGUAGES).map(button));
        this.lists = Object.fromEntries(['happens', 'acts'].map((it) => [it, new LabPages(LabSight.place(`${it}-pages`), this.words)]));
        this.beside = null;
        this.cells = this.cellPages();
        this.tabs = new LabTabs(() => this.drawing?.lay());
        this.tabs.turnTo(LabTabs.FIRST);
    }

    /** The buttons that turn the pages of the memories. */
    cellPages() {
        const turn = (by) => () => this.drawing.turnTo(this.drawing.places.cells.page + by);
        const [back, on] = [['‹', -1], ['›', 1]].map(([sign, by]) => Element.html('button', { type: 'button', click: turn(by) }, sign));
        const where = Element.html('span', {});
        LabSight.place('cells-pages').replaceChildren(back, where, on);
        return { buttons: [back, on], where, shown: null };
    }

    /** The element with this name. */
    static place(id) { return document.getElementById(id); }

    /** A new drawing, for the places of a program; `hurt` is told which lamp or cell was pressed. */
    build(places, simplex, hurt) {
        this.drawing = new Board.Drawing({ words: this.words, places, simplex });
        for (const kind of ['lamp', 'cell']) this.drawing.element.addEventListener(kind, ({ detail }) => hurt(kind, detail));
        this.drawing.element.addEventListener('paged', ({ detail }) => this.paged(detail));
        LabSight.place('board').replaceChildren(this.drawing.element);
    }

    /** Tells which cells are drawn; where all of them are, nothing. */
    paged(cells) {
        this.cells.shown = cells;
        LabSight.place('cells-pages').hidden = cells.pages < 2;
        this.cells.where.textContent = this.words('lab.cells', { first: cells.first + 1, last: cells.first + cells.here, count: cells.count });
    }

    /** The word that was read or stored last at a place, if that is known. */
    wordAt(place) { return this.drawing.moment.known?.get(place)?.word; }

    /** Puts all controls back to where they are at first, and the page to its top. */
    reset() {
        const { place } = LabSight;
        for (const id of ['once', 'good']) place(id).checked = place(id).defaultChecked;
        for (const id of ['kind', 'program']) place(id).selectedIndex = 0;
        this.tabs.turnTo(LabTabs.FIRST);
        window.scrollTo(0, 0);
    }

    /** The programs that can be chosen, by what they do. */
    programs(names) {
        LabSight.place('program').replaceChildren(...names.map((it, at) => Element.html('option', { value: at, 'data-program': it })));
        this.namePrograms();
    }

    namePrograms() {
        for (const it of LabSight.place('program').options) it.textContent = LabTelling.program(it.dataset.program, this.words);
    }

    busy(asks) { document.body.setAttribute('aria-busy', String(asks)); }

    // ---- the machine

    /** Shows a moment, with the faults that a visitor made and that act in it. */
    moment(moment, faults, last, moving) {
        const { place } = LabSight;
        const acting = faults.filter((it) => Faults.actsIn(it, moment.step, moment.step));
        const copies = acting.filter((it) => it.module).map((it) => Trace.keyOf(it.module, it.copy));
        const cells = acting.filter((it) => it.place).map((it) => `${it.twin} ${it.place}`);
        this.drawing.show(moment, moving, { copies, cells, module: moment.end?.module ?? null });
        place('instruction').replaceChildren(LabView.instruction(moment.instruction, this.words));
        place('where').textContent = Saying.where(moment, last, this.words);
        this.list('happens', LabView.happens(moment, this.words));
    }

    /** Shows the items of a list, by pages. */
    list(id, items, seen) {
        const box = LabSight.place(id);
        box.replaceChildren(...items);
        this.lists[id].show(box, items, seen);
    }

    /** Where the slider stands, over all steps that are asked for, with a mark at each fault and at the end of the run. */
    time(step, last, faults, end) {
        const slider = LabSight.place('slider');
        slider.max = String(last);
        slider.value = String(step);
        slider.setAttribute('aria-valuetext', `${this.words('control.time')} ${step}`);
        LabSight.place('marks').replaceChildren(...LabView.marks(faults, end?.step ?? null, last));
    }

    playing(plays) {
        const { html } = Element;
        const word = this.words(plays ? 'control.pause' : 'control.play');
        LabSight.place('play').replaceChildren(html('span', { class: 'lab-sign-only', 'aria-hidden': 'true' }, plays ? '❙❙' : '▶'), html('span', { class: 'lab-word' }, word));
        LabSight.place('play').setAttribute('aria-label', word);
    }

    // ---- what was broken, and what it came to

    session(session, mend) {
        const { place } = LabSight;
        this.list('acts', LabView.acts(session.acts, this.words, mend), session.acts.length - 1);
        this.broken = session.acts.length;
        this.tabs.speak(this.words, this.broken);
        place('undo').disabled = session.acts.length === 0;
        place('deck').value = session.text;
        place('count').value = String(session.count);
    }

    /** What the run came to; where it wasn't withstood with buttons for what would have happened, and for the step that decided. */
    outcome(outcome, lines, seeWhatIf, goThere) {
        const { button } = Element;
        const acts = seeWhatIf ? [button(this.words('mode.through'), '', seeWhatIf), button(this.words('lab.decided'), '', goThere)] : [];
        this.box(outcome.kind, false).replaceChildren(...LabView.outcome(outcome.kind, LabTelling.outcome(outcome, lines, this.words), ...acts));
        LabSight.place('report').textContent = (outcome.texts ?? []).join('\n');
        this.tabs.goBack();
    }

    /** What would have happened, beside a healthy machine. */
    whatIf(kind, { healthy, other, parting }, goBack) {
        const { words } = this;
        const beside = LabView.beside(healthy, other, parting, words);
        const back = Element.html('p', { class: 'buttons' }, Element.button(words('lab.judge'), '', goBack));
        const told = [Element.html('p', { class: 'sentence' }, words('lab.through.title')), Element.html('p', {}, words('lab.through.text'))];
        this.box(kind, true).replaceChildren(...told, ...beside.parts, back);
        if (beside.turner) new LabPages(beside.turner, words).show(beside.box, beside.rows, beside.seen);
    }

    box(kind, through) {
        const box = LabSight.place('outcome');
        box.dataset.kind = kind;
        box.classList.toggle('through', through);
        return box;
    }

    // ---- words

    /** Speaks a language, and spells in words or in octal. */
    speak(language, octal) {
        this.words = Words.of(language, octal);
        this.translate();
        this.namePrograms();
        this.drawing?.speak(this.words);
        if (this.cells.shown) this.paged(this.cells.shown);
        this.tabs.speak(this.words, this.broken ?? 0);
        for (const it of Object.values(this.lists)) it.speak(this.words);
    }

    translate() {
        const { words } = this;
        document.documentElement.lang = words.language;
        document.title = words('mode.break');
        for (const it of document.querySelectorAll('[data-say]')) it.textContent = words(it.dataset.say);
        for (const twin of Parts.TWINS) LabSight.place(`memory-${twin}`).textContent = words('lab.memory', { twin: Spelling.twin(twin, words) });
        for (const it of document.querySelectorAll('[data-name]')) {
            it.setAttribute('aria-label', words(it.dataset.name));
            it.title = words(it.dataset.name);
        }
        for (const it of LabSight.place('languages').children) it.setAttribute('aria-pressed', String(it.lang === words.language));
        LabSight.place('octal').setAttribute('aria-pressed', String(words.octal));
        this.cells.buttons.forEach((it, at) => it.setAttribute('aria-label', words(['lab.page.back', 'lab.page.on'][at])));
    }
}

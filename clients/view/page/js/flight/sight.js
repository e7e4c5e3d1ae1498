'use strict';

/** What the page of the flight shows: the sky, the machine, and what is said of them. It is told what to show, and asks nothing. */
class FlightSight {
    constructor(language, strike) {
        this.words = Words.of(language);
        this.sky = new Sky(FlightSight.place('sky'));
        this.machine = new Machine(FlightSight.place('machine'), strike);
        this.sound = new FlightSound();
        this.waits = false;
        new ResizeObserver(() => this.drawWires()).observe(document.body);
        this.speak(language);
    }

    static place(id) { return document.getElementById(id); }

    // ---- words

    speak(language) {
        this.words = Words.of(language);
        document.documentElement.lang = language;
        document.title = this.words('kiosk.title');
        for (const it of document.querySelectorAll('[data-say]')) it.textContent = this.words(it.dataset.say);
        for (const it of document.querySelectorAll('[data-name]')) it.setAttribute('aria-label', this.words(it.dataset.name));
        for (const it of FlightSight.place('languages').children) it.setAttribute('aria-pressed', String(it.lang === language));
        this.machine.speak(this.words);
        this.said?.();
        this.drawWires();
    }

    /** Says a title and sentences, which `tell` makes of words, and what can be chosen: each choice is a key of `Words` and what it does. */
    say(kind, tell, choices = []) {
        const { place } = FlightSight;
        const { title, more = [] } = tell(this.words);
        this.said = () => this.say(kind, tell, choices);
        document.body.dataset.kind = kind;
        if (place('verdict').textContent !== title) place('verdict').textContent = title;
        place('more').textContent = more.join(' ');
        // a key's focus waits where nothing can be chosen for a while
        this.waits = this.waits || place('choices').contains(document.activeElement);
        place('choices').replaceChildren(...choices.map(([key, act]) => Element.html('button', { type: 'button', 'data-key': key, click: act }, this.words(key))));
        if (!this.waits || choices.length === 0) return;
        this.waits = false;
        place('choices').firstElementChild.focus();
    }

    // ---- the flight

    /** Shows a step and the words that were sent by then. */
    show({ step, healthy, struck, sent, wrong, silent, second }) {
        if (step) this.machine.show(step, healthy, struck);
        this.sky.show(sent, { wrong, silent, second, words: this.words });
    }

    /** The votes of these modules travel. */
    votes(modules, milliseconds) { return Promise.all(modules.map((it) => FlightMotion.votes(this.machine.parts.get(it), milliseconds))); }

    /** The error of a module runs to the rocket. */
    error(module, milliseconds) {
        const { parts, bus, port, memories } = this.machine;
        const from = module ? parts.get(module) : { voter: memories[0] };
        return FlightMotion.error(from, bus, port, FlightSight.place('sky'), milliseconds);
    }

    // ---- wires

    /** Draws the ways that votes and words go: from each module to the bus, and from there to the memories and the port. */
    drawWires() {
        const { parts, bus, memories, port } = this.machine;
        const { y } = FlightMotion.middleOf(bus);
        const line = (x, from, kind) => Element.svg('path', { d: `M${x} ${from}V${y}`, class: kind });
        const above = Array.from(parts.values(), ({ card }) => line(FlightMotion.middleOf(card).x, card.getBoundingClientRect().bottom, 'above'));
        const below = [...memories, port].map((it) => line(FlightMotion.middleOf(it).x, it.getBoundingClientRect().top, 'below'));
        FlightSight.place('wires').replaceChildren(...above, ...below);
    }
}

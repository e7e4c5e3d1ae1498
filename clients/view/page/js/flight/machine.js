'use strict';

/** The computer: seven modules with three copies and a voter each, the bus, two memories, and the way to the rocket. Each copy shows what it says. */
class Machine {
    /** `strike` is told what was pressed: a copy of a module, or a memory. */
    constructor(place, strike) {
        const { html } = Element;
        Object.assign(this, { place, strike, parts: new Map(), memories: [] });
        const modules = html('div', { class: 'modules' }, ...Parts.MODULES.map((it) => this.part(it.number)));
        this.bus = html('div', { class: 'bus' });
        this.port = html('div', { class: 'port' });
        const memories = Parts.TWINS.map((twin) => this.memory(twin));
        place.replaceChildren(modules, this.bus, html('div', { class: 'below' }, ...memories, this.port));
        Roving.over(place, [...Array.from(this.parts.values(), ({ copies }) => copies).flat(), ...memories]);
    }

    part(module) {
        const { html } = Element;
        const copies = Parts.COPIES.map((copy) => html('button', {
            type: 'button', class: 'copy', 'data-module': module, 'data-copy': copy, pointerdown: (event) => this.pressed(event, { module, copy }),
            click: (event) => this.clicked(event, { module, copy }),
        }));
        const name = html('h2', {});
        const voter = html('span', { class: 'voter' });
        const value = html('span', { class: 'value' });
        const card = html('div', { class: 'part', 'data-module': module }, name, html('div', { class: 'copies' }, ...copies),
            html('p', { class: 'voted' }, voter, value));
        this.parts.set(module, { card, name, copies, voter, value });
        return card;
    }

    memory(twin) {
        const made = Element.html('button', {
            type: 'button', class: 'memory', 'data-twin': twin, pointerdown: (event) => this.pressed(event, { twin }), click: (event) => this.clicked(event, { twin }),
        });
        this.memories[twin] = made;
        return made;
    }

    /** Fingers strike as they touch, each for itself; a key strikes by its click, which comes without a pointer. */
    pressed(event, what) {
        if (event.button === 0) this.strike(what, event.currentTarget);
    }

    clicked(event, what) {
        if (event.detail === 0) this.strike(what, event.currentTarget);
    }

    /** The button of what was struck. */
    buttonOf({ module, copy, twin }) { return module ? this.parts.get(module).copies[copy - 1] : this.memories[twin]; }

    // ---- showing

    speak(words) {
        this.words = words;
        for (const [module, { name }] of this.parts) name.textContent = words(`module.${module}`);
        this.port.textContent = words('flight.port');
    }

    /** Shows a step, beside the same step of a healthy flight where that is there. `struck` are the keys of what a visitor has hit in it. */
    show(step, healthy, struck) {
        for (const { number } of Parts.MODULES) this.showPart(number, step, healthy, struck);
        this.showMemories(step, struck);
    }

    showPart(module, step, healthy, struck) {
        const { card, copies, voter, value } = this.parts.get(module);
        const vote = step.votes.get(module);
        const says = FlightSaying.of(module, vote, this.words);
        const kinds = Parts.COPIES.map((copy) => Machine.kindOf(step, Trace.keyOf(module, copy)));
        copies.forEach((it, at) => this.showCopy(it, module, at + 1, kinds[at], step, struck));
        const against = Parts.COPIES.filter((copy) => step.differing.has(Trace.keyOf(module, copy))).length;
        voter.textContent = `${Parts.COPIES.length - against} : ${against}`;
        value.textContent = says;
        const isWrong = healthy !== null && healthy.votes.get(module).join() !== vote.join();
        card.classList.toggle('misled', isWrong);
        card.classList.toggle('apart', against > 0);
    }

    /** What a copy is: one that the script makes wrong lies; one that is right and outvoted is alone. */
    static kindOf(step, key) {
        if (step.wrong.has(key)) return 'lies';
        return step.differing.has(key) ? 'alone' : 'well';
    }

    showCopy(button, module, copy, kind, step, struck) {
        const { words } = this;
        const key = Trace.keyOf(module, copy);
        const says = FlightSaying.of(module, step.differing.get(key) ?? step.votes.get(module), words);
        const shown = `${kind} ${says} ${struck.has(key)}`;
        if (button.dataset.shown === `${words.language} ${shown}`) return;
        button.dataset.shown = `${words.language} ${shown}`;
        button.dataset.kind = kind;
        button.classList.toggle('struck', struck.has(key));
        button.replaceChildren(Element.html('span', { class: 'says' }, says), Element.html('span', { class: 'number' }, String(copy)));
        button.setAttribute('aria-label', words('flight.copy', { module: words(`module.${module}`), copy, says, state: words(`flight.kind.${kind}`) }));
    }

    showMemories(step, struck) {
        this.memories.forEach((it, twin) => {
            const isDead = struck.has(`memory-${twin}`);
            const isUsed = step.exchange?.address !== undefined && !isDead;
            it.dataset.kind = isDead ? 'dead' : 'well';
            it.classList.toggle('used', isUsed);
            const says = isDead ? this.words('flight.dead') : this.words('flight.memory', { twin: twin + 1 });
            if (it.textContent !== says) it.textContent = says;
        });
        this.port.classList.toggle('used', step.exchange?.kind === 'OUT');
    }
}

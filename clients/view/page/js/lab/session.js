'use strict';

/** What a visitor has done so far. It is a deck: a program, its count, and the fault lines of each act. All of it is kept here, nothing in the server. */
class LabSession {
    constructor(deck) {
        Object.assign(this, { deck, count: deck.count, acts: deck.faults.map((it) => [it]) });
    }

    /** A session that begins with the text of a deck; none where it is no deck. Each fault line that it has is an act. */
    static of(text) {
        const deck = LabDeck.read(text);
        return deck ? new LabSession(deck) : null;
    }

    /** The fault lines of all acts. */
    get faults() { return this.acts.flat(); }

    /** The deck as a text. */
    get text() { return this.textWith(this.faults); }

    /** The same deck before anything was hurt. */
    get healthyText() { return this.textWith([]); }

    /** The same deck with other fault lines. */
    textWith(faults) { return LabDeck.text(this.deck, faults, this.count); }

    /** One more than the last step that is asked for. */
    get steps() { return Parts.firstStepOf(this.count); }

    /** Adds an act; one that hurts what an act before it hurts in the same step is taken for that it takes it back. */
    hurt(lines, step) {
        const target = Hurts.targetOf(lines, step);
        const earlier = target === null ? -1 : this.acts.findLastIndex((it) => Hurts.targetOf(it, step) === target);
        if (earlier < 0) this.acts = [...this.acts, lines];
        else this.mend(earlier);
    }

    undo() { this.acts = this.acts.slice(0, -1); }

    mend(index) { this.acts = this.acts.filter((_, at) => at !== index); }

    startAgain() { this.acts = []; }

    take(count) { this.count = count; }
}

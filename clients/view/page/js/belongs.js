'use strict';

/** Whether a deck and a report can be of one run. Each doubt is a sentence; where there is none they may still be of two. */
const Belongs = (() => {
    /** The report's count of times against the deck's. */
    function ofTimes(deck, report) {
        const times = Report.times(report);
        if (deck.count === null || times === null) return [];
        const isOther = report.end?.kind === 'done' ? times !== deck.count : times > deck.count;
        return isOther ? [`The deck asks for ${deck.count} instruction times, and the report has ${times}.`] : [];
    }

    const named = (deck) => new Set(deck.faults.map((it) => (it.module ? Trace.keyOf(it.module, it.copy) : `twin ${it.twin}`)));

    /** In a judged run only copies differ that the script makes wrong. */
    function ofCopies(deck, report) {
        const keys = named(deck);
        const others = report.title === 'RUN' ? report.wrong.filter((it) => !keys.has(Trace.keyOf(it.module, it.copy))) : [];
        const said = (it) => `Copy ${it.copy} of the ${Parts.module(it.module).name} differed, and no fault line of the deck names it.`;
        return others.slice(0, 1).map(said);
    }

    /** Cells are only mended in a twin that a fault line names. */
    function ofRepairs(deck, report) {
        const keys = named(deck);
        const others = report.repairs.filter((it) => !keys.has(`twin ${it.twin}`));
        return others.slice(0, 1).map((it) => `A cell of twin ${it.twin} was mended, and no fault line of the deck names that twin.`);
    }

    /** A run ends by a module where two of its copies are wrong. */
    function ofEnd(deck, { end }) {
        if (end?.kind !== 'logic') return [];
        const wrong = new Set(deck.faults.filter((it) => it.module === end.module && Faults.actsIn(it, end.step, end.step)).map((it) => it.copy));
        return wrong.size > 1 ? [] : [`The report ends by two wrong copies at step ${end.step}, and the deck has no two there.`];
    }

    /** Most words of an image are still there at the end. */
    function ofWords(deck, report) {
        const there = new Map(report.memory.map((it) => [it.address, it.word]));
        const words = [...deck.words].filter(([, word]) => Number.parseInt(word, 8) !== 0);
        const kept = words.filter(([address, word]) => ['?', word].includes(there.get(address)));
        return kept.length * 2 < words.length ? ['The words of the deck\'s program aren\'t those of the report.'] : [];
    }

    /** What speaks against a deck and a report being of one run. */
    function doubts(deck, report) {
        if (report.title === '' || deck.lines.length === 0) return [];
        const all = [ofTimes, ofWords, ...(report.title === 'PLAIN' ? [] : [ofCopies, ofRepairs, ofEnd])];
        return all.flatMap((it) => it(deck, report));
    }

    return { doubts };
})();

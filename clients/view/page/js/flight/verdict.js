'use strict';

/** What a strike came to, in a few words, and what of that is proved: by the report of the flight alone, and by the words that it sends. */
const Verdict = (() => {
    const DEGREE = 100;

    const degrees = (number, words) => (Math.round(number / DEGREE) + 0).toLocaleString(words.language).replace('-', '−');

    /** Copies that a strike makes wrong, by module. */
    function copiesOf(struck) {
        const found = new Map();
        for (const it of struck.filter(({ module }) => module)) found.set(it.module, [...(found.get(it.module) ?? []), it.copy]);
        return found;
    }

    /** The kind of a flight that went on: who knew better. */
    function kindOfFlown(struck) {
        const copies = copiesOf(struck);
        if (copies.size === 0) return 'memory';
        return struck.length === 1 ? 'one' : 'apart';
    }

    /** The first wrong word in words: another number, or none. */
    function wrongWord(flown, healthy, at, words) {
        const [wrong, right] = [flown.sent[at], healthy.sent[at]];
        if (!wrong || !right || wrong.step > right.step) return words('flight.silent', { second: at + 1 });
        const [one, other] = [degrees(wrong.number, words), degrees(right.number, words)];
        return one === other ? words('flight.early', { second: at + 1 }) : words('flight.turned', { wrong: one, right: other });
    }

    /** Of a flight that its faults ended: what is seen of it. */
    function broken(flown, healthy, words) {
        const at = flown.firstWrong(healthy);
        const proved = words('flight.proved.until');
        if (at < 0) return { kind: 'luck', title: words('flight.luck'), more: [words('flight.luck.why'), proved] };
        const cause = flown.report.end.kind === 'logic' ? 'two' : 'memories';
        return { kind: 'broke', at, title: words(`flight.broke.${cause}`), more: [wrongWord(flown, healthy, at, words), proved] };
    }

    /** What a flight came to; `struck` is what was struck in it last. */
    function of(flown, healthy, struck, words) {
        if (flown.through) return broken(flown, healthy, words);
        const claim = { whole: 'flight.proved', lost: 'end.lost' }[Claims.of(flown.report)];
        if (!claim) return { kind: 'unknown', title: words('lab.unknown.title'), more: [] };
        return { kind: 'flew', title: words(`flight.flew.${kindOfFlown(struck)}`), more: [words(claim)] };
    }

    return { of, degrees };
})();

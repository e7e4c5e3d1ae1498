'use strict';

/** What a run through every fault did beside a healthy one: the words that were stored, sent and taken, up to the first that is wrong. */
const Outcome = (() => {
    const RESULTS = new Set(['STORE', 'OUT', 'IN']);
    const OF_THE_REDUNDANCY = /^(LVDC|WRONG|REPAIR)\b/;

    /** The results of a trace, in their order. */
    const resultsOf = (trace) => trace.steps.filter((it) => RESULTS.has(it.exchange?.kind)).map((it) => ({ step: it.number, ...it.exchange }));

    const spelled = (it) => (it ? [it.step, it.kind, it.address ?? it.port, it.word].join(' ') : '');

    /** The results of both runs side by side, and the index of the first two that aren't the same, or −1. */
    function of(healthy, through) {
        const [well, hurt] = [resultsOf(healthy), resultsOf(through)];
        const rows = Array.from({ length: Math.max(well.length, hurt.length) }, (_, at) => ({ well: well[at] ?? null, hurt: hurt[at] ?? null }));
        return { rows, first: rows.findIndex((it) => spelled(it.well) !== spelled(it.hurt)) };
    }

    /** What a report says of the program alone, without what the redundancy did. */
    const ofProgram = (report) => report.split('\n').filter((it) => !OF_THE_REDUNDANCY.test(it)).join('\n');

    /** Whether two reports say the same of the program. */
    const isSame = (one, other) => ofProgram(one) === ofProgram(other);

    /** The step in which the first wrong result is seen. */
    const stepOf = ({ rows, first }) => Math.min(...[rows[first].well?.step, rows[first].hurt?.step].filter((it) => it !== undefined));

    return { of, isSame, stepOf };
})();

'use strict';

/** What may be claimed of a run, by its report alone: docs/inside/PROMISES.md has the promise behind it. */
const Claims = (() => {
    const lostOf = (report) => report.memory.filter((it) => it.lost);

    /** Whether a judged run wasn't ended by its faults or by a device; of a report that can't be read whole nothing is known. */
    function isJudgedThrough({ title, end, unread }) {
        if (title !== 'RUN' || unread.length > 0) return false;
        return end?.kind === 'done' || (end?.kind === 'stopped' && end.by !== 'MEMORY');
    }

    /** `whole`: every result is a healthy machine's. `lost`: the same, but for words that can't be recovered. `none`: nothing is claimed. */
    function of(report) {
        if (!isJudgedThrough(report)) return 'none';
        return lostOf(report).length > 0 ? 'lost' : 'whole';
    }

    /** The claim in sentences, the claim itself first; `always` is whether the script masks by form. */
    function sentences(report, always, words) {
        const lost = lostOf(report).length;
        return {
            none: () => [],
            lost: () => [words('end.lost'), words(lost === 1 ? 'end.lost.one' : 'end.lost.many', { count: lost })],
            whole: () => [words('end.proved'), ...(always ? [words('end.always')] : [])],
        }[of(report)]();
    }

    return { of, sentences };
})();

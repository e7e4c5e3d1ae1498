'use strict';

/** What a run came to, from two texts: its report, and whether its script masks by form. Nothing is judged here. */
const LabOutcome = (() => {
    const FORM = /^FORM (?:YES|NO ([1-4]))\s*$/;
    const BY_END = { logic: 'logic', memory: 'memory', device: 'device' };

    /** The condition of the form that isn't met, 0 where all are, or none where the text isn't of the form. */
    function unmetOf(text) {
        const match = FORM.exec(text);
        return match ? Number(match[1] ?? 0) : null;
    }

    /** The report that an answer is, read once. */
    function reportOf(answer) {
        answer.report ??= Report.read(answer.text);
        return answer.report;
    }

    /** The kind of a run of which something is claimed: nothing was broken; a word is lost that nobody has read; withstood for good by its
     * form, or this time. */
    function claimedKind(report, unmet, hurts) {
        if (hurts === 0) return 'healthy';
        if (Claims.of(report) === 'lost') return 'so-far';
        return unmet === 0 ? 'always' : 'this-time';
    }

    /** The kind of an outcome, with the texts' objects that say more. */
    function of(run, form, hurts) {
        if (run.text.startsWith('REFUSED ')) return { kind: 'refused', refusal: Report.refusal(run.text) };
        const report = reportOf(run);
        const unmet = unmetOf(form.text);
        if (Claims.of(report) !== 'none' && unmet !== null) return { kind: claimedKind(report, unmet, hurts), report, unmet };
        return { kind: BY_END[report.end?.kind] ?? 'unknown', report, unmet, why: 'lab.unread' };
    }

    /** Where two runs part, by their reports: how each ended, the first port line that differs or -1, the registers and the words that differ. */
    function parting(healthy, other) {
        const at = healthy.log.findIndex((it, index) => !isSameExchange(it, other.log[index]));
        return {
            ends: [healthy.end, other.end],
            first: at < 0 && other.log.length > healthy.log.length ? healthy.log.length : at,
            registers: differing(healthy.registers, other.registers),
            words: differing(wordsOf(healthy), wordsOf(other)),
        };
    }

    /** Whether two runs part nowhere, by their reports. */
    const isSame = ({ ends: [one, two], first, registers, words }) => one?.line === two?.line && first < 0 && registers.length + words.length === 0;

    const isSameExchange = (one, two) => two !== undefined && ['reading', 'time', 'port', 'word'].every((it) => one[it] === two[it]);

    const wordsOf = (report) => new Map(report.memory.map((it) => [it.address, it.word]));

    /** The keys under which two lists have other values. */
    const differing = (one, two) => [...new Set([...one.keys(), ...two.keys()])].filter((it) => one.get(it) !== two.get(it));

    return { of, reportOf, parting, isSame };
})();

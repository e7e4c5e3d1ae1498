'use strict';

/** Why lies that won the vote, or could have won it, changed nothing: by two traces, that of the run through every fault and that of a healthy
 * machine, laid beside each other. */
const Harmless = (() => {
    const STEPS = 1500;

    const spelled = (latches) => latches.join();

    /** The module whose vote isn't that of a healthy machine after a step, or none. */
    function misled(other, healthy) {
        const isOther = ({ number }) => spelled(other.votes.get(number)) !== spelled(healthy.votes.get(number));
        return Parts.MODULES.find(isOther)?.number ?? null;
    }

    /** Which of the steps have a vote that isn't a healthy machine's, by the number of its module. */
    const misledSteps = (other, healthy) => other.map((it, at) => (healthy[at] ? misled(it, healthy[at]) : null));

    async function stepsOf(words, text, first) {
        const answer = await Asking.ask(['trace', ...words, first, STEPS], text);
        return Trace.read(answer.text).steps;
    }

    /** The reason, as a key of `Words` and what it names: no copy differed; none of the lies won; what was wrong was replaced in a step; or it
     * still stands in a module, which nobody asks any more. */
    async function why(session, faults) {
        const first = Math.min(...faults.map((it) => it.first));
        const [other, healthy] = await Promise.all([stepsOf(['--through'], session.text, first), stepsOf([], session.healthyText, first)]);
        const found = misledSteps(other, healthy);
        const last = found.findLastIndex((it) => it !== null);
        if (last >= 0 && last < other.length - 1) return { key: 'replaced', step: other[last + 1].number };
        if (last >= 0) return { key: 'unread', module: found[last] };
        return { key: other.some((it) => it.differing.size > 0) ? 'apart' : 'same' };
    }

    return { why };
})();

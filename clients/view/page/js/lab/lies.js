'use strict';

/** Which lie a copy tells, of those that its module can tell: the first by which two copies, if nobody judged them, would make the program send
 * something else. It is asked of lvdc-worker, so all copies of a module tell the same lie in a step. Of a long run nothing is asked. */
const Lies = (() => {
    const MOST_TIMES = 5000;
    const COPIES = Parts.COPIES.slice(0, 2);

    const run = (session, faults) => Asking.ask(['run', '--through'], session.textWith(faults)).then(LabOutcome.reportOf);

    /** How much of a lie is seen: another word at a port, another end, another number inside, or nothing. */
    function seen(healthy, other) {
        const { ends: [one, two], first, registers, words } = LabOutcome.parting(healthy, other);
        if (first >= 0) return 3;
        if (one?.line !== two?.line) return 2;
        return registers.length + words.length > 0 ? 1 : 0;
    }

    /** The lie that is seen best in this step, or from it on; of those that are seen as well the first. */
    async function chosen(session, module, step, lasting) {
        const lies = Hurts.LIES[module];
        if (session.count > MOST_TIMES) return lies[0];
        const faults = (lie) => COPIES.flatMap((copy) => Hurts.copy('FLIP', { module, copy }, step, lasting, lie));
        const [healthy, ...others] = await Promise.all([run(session, []), ...lies.map((it) => run(session, faults(it)))]);
        const marks = others.map((it) => seen(healthy, it));
        return lies[marks.indexOf(Math.max(...marks))];
    }

    return { chosen };
})();

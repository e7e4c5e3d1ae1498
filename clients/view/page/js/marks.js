'use strict';

/** The lanes of time and their marks: one lane for each copy, for each memory, for the ports and for the end. Nothing is drawn here. */
const Marks = (() => {
    /** The marks of one lane by their first step, with how far those up to each reach: what is under a step is found without a look at all. */
    class Lane {
        constructor(key, label, marks) {
            Object.assign(this, { key, label, marks: marks.sort((a, b) => a.first - b.first) });
            let reach = -1;
            this.reach = this.marks.map((it) => { reach = Math.max(reach, it.last); return reach; });
        }

        /** How many marks begin before this step. */
        before(step) {
            let low = 0;
            let high = this.marks.length;
            while (low < high) {
                const middle = (low + high) >> 1;
                if (this.marks[middle].first < step) low = middle + 1;
                else high = middle;
            }
            return low;
        }

        /** The marks that stand in one of these steps. */
        under(first, last) {
            const found = [];
            for (let at = this.before(last + 1) - 1; at >= 0 && this.reach[at] >= first; at -= 1) {
                if (this.marks[at].last >= first) found.push(this.marks[at]);
            }
            return found.reverse();
        }

        /** The first step after this one at which a mark begins, or none. */
        nextAfter(step) { return this.marks[this.before(step + 1)]?.first ?? null; }

        /** The last step before this one at which a mark begins, or none. */
        lastBefore(step) { return this.marks[this.before(step) - 1]?.first ?? null; }
    }

    /** A mark: the steps that it stands at, its kind, and what of the texts it is of. */
    const mark = (first, last, kind, of) => ({ first, last, kind, of });

    const FAULT_KINDS = { FLIP: 'fault', FORCE: 'fault', LAG: 'fault', DEAF: 'fault', DAMAGE: 'damage', STICK: 'stick', DEAD: 'dead' };

    function addFaults(marks, faults) {
        for (const it of faults) {
            const lane = it.module ? `copy-${it.module}-${it.copy}` : `memory-${it.twin}`;
            marks.get(lane)?.push(mark(it.first, it.last, FAULT_KINDS[it.kind], it));
        }
    }

    /** Repairs at their steps, and port exchanges, which are made in the last phase of their instruction times. */
    function addReport(marks, report) {
        for (const it of report.repairs) marks.get(`memory-${it.twin}`)?.push(mark(it.step, it.step, 'repair', it));
        const ports = marks.get('ports');
        for (const it of report.log) {
            const step = Parts.lastStepOf(it.time);
            ports.push(mark(step, step, it.reading ? 'in' : 'out', it));
        }
    }

    function addUnplugs(marks, unplugs) {
        for (const it of unplugs) {
            const begin = Parts.firstStepOf(it.time);
            marks.get('ports').push(mark(begin, begin, 'unplug', it));
        }
    }

    /** The steps that are shown: those of the run, or where no report is there those that the deck asks for; one time at least. */
    function stepsOf(report, deck) {
        const times = Report.times(report) ?? (report.title === '' ? deck.count : null) ?? 0;
        return Math.max(Parts.firstStepOf(1), Parts.firstStepOf(times), (report.end?.step ?? -1) + 1);
    }

    function addEnd(marks, report, steps) {
        if (!report.end) return;
        const step = report.end.step ?? steps - 1;
        marks.get('end').push(mark(step, step, 'end', report));
    }

    const SAYS = {
        fault: Telling.fault, damage: Telling.fault, stick: Telling.fault, dead: Telling.fault, repair: Telling.repair,
        in: Telling.exchange, out: Telling.exchange, unplug: Telling.unplug, end: (report) => Telling.end(report.end, Report.times(report)),
    };

    /** What a mark says, in plain words. */
    const says = (it) => SAYS[it.kind](it.of);

    /** The line of the deck or of the report that a mark is, where a line stands for it alone. */
    const lineOf = (it) => it.of.line?.text.trim() ?? it.of.end?.line ?? '';

    /** The keys and labels of all lanes. The plain machine has no copies, and one memory that never fails. */
    function names(plain) {
        const others = [['ports', 'ports'], ['end', 'end']];
        if (plain) return others;
        const ofModule = ({ number, name }) => Parts.COPIES.map((copy) => [`copy-${number}-${copy}`, `${name} ${copy}`]);
        return [...Parts.MODULES.flatMap(ofModule), ...Parts.TWINS.map((twin) => [`memory-${twin}`, `twin ${twin}`]), ...others];
    }

    /** The lanes of a run, and how many steps they have. */
    function of(report, deck) {
        const labels = names(report.title === 'PLAIN');
        const marks = new Map(labels.map(([key]) => [key, []]));
        const steps = stepsOf(report, deck);
        addFaults(marks, deck.faults);
        addReport(marks, report);
        addUnplugs(marks, deck.unplugs);
        addEnd(marks, report, steps);
        return { steps, lanes: labels.map(([key, label]) => new Lane(key, label, marks.get(key))) };
    }

    return { of, says, lineOf };
})();

'use strict';

/** Reads traces: what happened in each step of a run. */
const Trace = (() => {
    const { numbered, whole, taken } = Lines;
    const TITLE = /^LVDC TRACE( THROUGH)?$/;
    const PLACE = '([0-7] [0-7]{2} [0-7]{3})';
    const WORD = '([0-7]{9})';
    const LATCHES = '((?: [0-7]{9})+)';
    const STEP = /^STEP (0|[1-9]\d*)$/;
    const MEMORY = new RegExp(`^(FETCH|OPERAND|STORE) ${PLACE} ${WORD}$`);
    const PORT = new RegExp(`^(IN|OUT) ([0-7]{3}) ${WORD}$`);
    const REPAIR = new RegExp(`^REPAIR ${PLACE} ([01])( SWITCH)?$`);
    const FAULT = /^FAULT ([1-7]) ([1-3])$/;
    const VOTE = new RegExp(`^VOTE ([1-7])${LATCHES}$`);
    const COPY = new RegExp(`^COPY ([1-7]) ([1-3])${LATCHES}$`);

    /** How a copy is named in sets and maps. */
    const keyOf = (module, copy) => `${module}-${copy}`;

    /** A step before its lines are read: the votes are those of the step before. */
    const begun = (number, votes) => ({
        number, exchange: null, repair: null, wrong: new Set(), votes: new Map(votes), changed: new Set(), differing: new Map(),
    });

    /** All latches of a module, or none where they are not as many as it has. */
    function latchesOf(module, words) {
        const latches = words.trim().split(' ');
        return latches.length === Parts.module(module).latches.length ? latches : null;
    }

    function takeVote(step, m) {
        const module = whole(m[1]);
        const latches = latchesOf(module, m[2]);
        if (!latches) return false;
        step.votes.set(module, latches);
        step.changed.add(module);
        return true;
    }

    function takeCopy(step, m) {
        const latches = latchesOf(whole(m[1]), m[3]);
        if (latches) step.differing.set(keyOf(m[1], m[2]), latches);
        return latches !== null;
    }

    /** The forms of the lines of a step, each with what it adds to the step. */
    const formsOf = (step) => [
        [MEMORY, (m) => { step.exchange = { kind: m[1], address: m[2], word: m[3] }; }],
        [PORT, (m) => { step.exchange = { kind: m[1], port: m[2], word: m[3] }; }],
        [REPAIR, (m) => { step.repair = { address: m[1], twin: whole(m[2]), switched: m[3] !== undefined }; }],
        [FAULT, (m) => { step.wrong.add(keyOf(m[1], m[2])); }],
        [VOTE, (m) => takeVote(step, m)],
        [COPY, (m) => takeCopy(step, m)],
    ];

    /** Whether a line was taken: a new step, or one of the step at hand. */
    function tookStep(found, line) {
        const last = found.steps.at(-1);
        const match = STEP.exec(line);
        if (!match) return last !== undefined && taken(formsOf(last), line);
        const number = whole(match[1]);
        if (last && number !== last.number + 1) return false;
        found.steps.push(begun(number, last?.votes ?? []));
        return true;
    }

    /** The last line: the end of the run, or that it goes on. */
    function tookEnd(found, line) {
        if (line === 'MORE') found.more = true;
        else found.end = Report.endOf(line);
        return found.more || found.end !== null;
    }

    /** What a trace says. After each step all votes are known, if they were told in the first. */
    function read(text) {
        const found = { through: false, steps: [], end: null, more: false, unread: [] };
        for (const line of numbered(text)) {
            const title = line.number === 1 ? TITLE.exec(line.text) : null;
            if (title) found.through = title[1] !== undefined;
            else if (found.end || found.more || !(tookStep(found, line.text) || tookEnd(found, line.text))) found.unread.push(line);
        }
        return found;
    }

    return { read, keyOf };
})();

'use strict';

/** Reads debug sessions: the commands, each with its answer, and where the machine stood at each. */
const SessionText = (() => {
    const { numbered, whole } = Lines;
    const COPY = /^COPY ([1-7]) ([1-3])((?: [0-7]{9})+)$/;
    const WENT = /^AT (0|[1-9]\d*) ([0-7] [0-7]{2} [01] [0-7]{3})$/;
    const LIMIT = /^LIMIT (0|[1-9]\d*)$/;
    const OTHER_ANSWERS = [
        /^BREAKS (\d+|FULL)$/,
        /^[0-7] [0-7]{2} [01] [0-7]{3} ([0-7]{5} [A-Z]{3} [0-7]{3}|\?)$/,
        /^BAD COMMAND$/,
    ];

    /** The copy that a line tells, with all latches of its module, or none. */
    function copyOf(line) {
        const match = COPY.exec(line);
        if (!match) return null;
        const found = { module: whole(match[1]), copy: whole(match[2]), latches: match[3].trim().split(' ') };
        return found.latches.length === Parts.module(found.module).latches.length ? found : null;
    }

    /** Where a machine went, by the answer to STEP or GO: the times made and the place, the limit, or the end; or none. */
    function wentTo(line) {
        const at = WENT.exec(line);
        if (at) return { kind: 'at', times: whole(at[1]), place: at[2] };
        const limit = LIMIT.exec(line);
        if (limit) return { kind: 'limit', times: whole(limit[1]) };
        const end = Report.endOf(line);
        return end ? { kind: 'end', end } : null;
    }

    const ANSWERS = [wentTo, copyOf, Report.registerOf, Report.memoryOf, (line) => OTHER_ANSWERS.some((it) => it.test(line))];

    const isAnswer = (line) => ANSWERS.some((of) => of(line));

    /** Adds to each command the last command that moved the machine, up to itself, and the times made before and after that move. */
    function withMoves(commands) {
        let last = { index: -1, before: 0, after: 0, went: null };
        commands.forEach((it, index) => {
            const went = it.lines.length > 0 ? wentTo(it.lines[0]) : null;
            if (went) last = { index, before: last.after, after: went.times ?? last.after, went };
            it.move = last;
        });
        return commands;
    }

    /** The commands of a session with their answers, and the lines that have none of the forms. */
    function read(text) {
        const found = { commands: [], unread: [] };
        for (const line of numbered(text)) {
            if (line.number === 1 && line.text === 'LVDC DEBUG') continue;
            if (line.text.startsWith('> ')) found.commands.push({ command: line.text.slice(2), number: line.number, lines: [] });
            else if (found.commands.length > 0 && isAnswer(line.text)) found.commands.at(-1).lines.push(line.text);
            else found.unread.push(line);
        }
        withMoves(found.commands);
        return found;
    }

    /** What was asked and answered since the machine last moved, up to this command: the registers, and the copies by module. */
    function standing(commands, index) {
        const found = { registers: new Map(), copies: new Map() };
        for (let at = Math.max(0, commands[index].move.index); at <= index; at += 1) {
            for (const line of commands[at].lines) takeAnswer(found, line);
        }
        return found;
    }

    function takeAnswer(found, line) {
        const register = Report.registerOf(line);
        const copy = copyOf(line);
        if (register) found.registers.set(register.name, register.value);
        if (copy) found.copies.set(copy.module, [...(found.copies.get(copy.module) ?? []).filter((it) => it.copy !== copy.copy), copy]);
    }

    return { read, standing };
})();

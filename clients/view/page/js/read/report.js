'use strict';

/** Reads reports, the short text of `soak`, and refusals. A line that has none of the forms is kept as it is, with its number. */
const Report = (() => {
    const { numbered, whole, taken } = Lines;
    const NUMBER = '(0|[1-9]\\d*)';
    const PLACE = '([0-7] [0-7]{2} [0-7]{3})';
    const WORD = '([0-7]{9})';
    const form = (...parts) => new RegExp(`^${parts.join(' ')}$`);

    const END_FORMS = [
        [form('END DONE'), () => ({ kind: 'done' })],
        [form('END STOPPED', NUMBER, '(SHIFT|EXM)'), (m) => ({ kind: 'stopped', step: whole(m[1]), by: m[2] })],
        [form('END STOPPED', NUMBER, 'MEMORY', PLACE), (m) => ({ kind: 'stopped', step: whole(m[1]), by: 'MEMORY', address: m[2] })],
        [form('END INADMISSIBLE', NUMBER, 'LOGIC', '([1-7])'), (m) => ({ kind: 'logic', step: whole(m[1]), module: whole(m[2]) })],
        [form('END INADMISSIBLE', NUMBER, 'MEMORY', PLACE), (m) => ({ kind: 'memory', step: whole(m[1]), address: m[2] })],
        [form('END DEVICE', NUMBER, '([0-7]{3})'), (m) => ({ kind: 'device', step: whole(m[1]), port: m[2] })],
    ];

    /** The end that a line tells, or none. */
    function endOf(line) {
        for (const [pattern, made] of END_FORMS) {
            const match = pattern.exec(line);
            if (match) return { ...made(match), line };
        }
        return null;
    }

    const REGISTER_FORMS = [
        form('(TIMES)', NUMBER),
        form('(PLACE)', '([0-7] [0-7]{2} [01] [0-7]{3})'),
        form('(DATA)', '([0-7] [0-7]{2})'),
        form('(DUP)', '([01] [01])'),
        form('(A|PQ|SAVER)', WORD),
    ];

    /** The register that a line tells, with its value as it is written, or none. */
    function registerOf(line) {
        for (const pattern of REGISTER_FORMS) {
            const match = pattern.exec(line);
            if (match) return { name: match[1], value: match[2] };
        }
        return null;
    }

    const MEMORY_FORM = form('MEM', PLACE, '([0-7]{9}|\\?)');

    /** The word that a line MEM tells, or none. */
    function memoryOf(line) {
        const match = MEMORY_FORM.exec(line);
        return match ? { address: match[1], word: match[2], lost: match[2] === '?' } : null;
    }

    const empty = () => ({ title: '', end: null, registers: new Map(), log: [], memory: [], wrong: [], repairs: [], unread: [] });

    const LIST_FORMS = (found) => [
        [form('(IN|OUT)', NUMBER, '([0-7]{3})', WORD), (m) => {
            found.log.push({ reading: m[1] === 'IN', time: whole(m[2]), port: m[3], word: m[4] });
        }],
        [form('WRONG', '([1-7])', '([1-3])', NUMBER), (m) => {
            found.wrong.push({ module: whole(m[1]), copy: whole(m[2]), count: whole(m[3]) });
        }],
        [new RegExp(`^REPAIR ${NUMBER} ${PLACE} ([01])( SWITCH)?$`), (m) => {
            found.repairs.push({ step: whole(m[1]), address: m[2], twin: whole(m[3]), switched: m[4] !== undefined });
        }],
    ];

    /** What stands once in a report: the title, the end, a register. */
    function takenOnce(found, line) {
        const title = /^LVDC (RUN|THROUGH|PLAIN)$/.exec(line.text);
        if (title && line.number === 1) found.title = title[1];
        else if (!found.end && line.text.startsWith('END ')) found.end = endOf(line.text);
        else {
            const register = registerOf(line.text);
            if (!register || found.registers.has(register.name)) return false;
            found.registers.set(register.name, register.value);
            return true;
        }
        return title !== null || found.end !== null;
    }

    /** What a report says. */
    function read(text) {
        const found = empty();
        const lists = LIST_FORMS(found);
        for (const line of numbered(text)) {
            const word = memoryOf(line.text);
            if (word) found.memory.push(word);
            else if (!taken(lists, line.text) && !takenOnce(found, line)) found.unread.push(line);
        }
        return found;
    }

    /** The instruction times that were made, or none where the report hasn't the line. */
    const times = (found) => (found.registers.has('TIMES') ? whole(found.registers.get('TIMES')) : null);

    /** What a refusal says: its cause, and its line where it names one. */
    function refusal(text) {
        const match = /^REFUSED (\S+)(?: (\d+))?\s*$/.exec(text);
        return match ? { cause: match[1], line: match[2] === undefined ? null : whole(match[2]) } : null;
    }

    /** What the six lines of `soak` say. */
    function soak(text) {
        const found = { end: null, lines: [] };
        for (const line of numbered(text)) {
            if (!found.end && line.text.startsWith('END ')) found.end = endOf(line.text);
            found.lines.push(line);
        }
        return found;
    }

    return { empty, read, times, endOf, registerOf, memoryOf, refusal, soak };
})();

'use strict';

/** Answers that were asked for beforehand: what becomes of a program under each single and each double fault of its copies, at some steps. */
const Answers = (() => {
    const { keyOf } = Trace;
    const COPIES = Parts.MODULES.flatMap(({ number }) => Parts.COPIES.map((copy) => keyOf(number, copy)));
    const PAIRS = COPIES.flatMap((one, at) => COPIES.slice(at + 1).map((other) => `${one} ${other}`));
    const NUMBERS = new Map([...COPIES, ...PAIRS].map((it, index) => [it, index]));
    const MOST = 2;
    const BEFORE = 2;

    /** The copies in the order in which the rows have them. */
    const ordered = (keys) => [...keys].sort((a, b) => COPIES.indexOf(a) - COPIES.indexOf(b));

    class Book {
        /** The steps that were asked about, and the rows: for each step one of each copy alone, and then one of each two. */
        constructor({ steps, rows }) { Object.assign(this, { steps, rows: Rows.read(rows).rows }); }

        get isWhole() { return this.rows.length === this.steps.length * NUMBERS.size; }

        /** The row of one or two copies that are wrong in a step. */
        row(step, keys) { return this.rows[this.steps.indexOf(step) * NUMBERS.size + NUMBERS.get(ordered(keys).join(' '))]; }
    }

    /** The copies that are hurt after one more is touched: a second touch lets it go, and of more than two the first goes. */
    function touched(keys, key) {
        if (keys.includes(key)) return keys.filter((it) => it !== key);
        return [...keys, key].slice(-MOST);
    }

    /** What would have been sent, and what is right, up to the first number that is another one; by two logs of ports. */
    function sent(right, wrong, words) {
        const length = Math.max(right.length, wrong.length);
        const at = Array.from({ length }).findIndex((_, index) => right[index]?.word !== wrong[index]?.word);
        if (at < 0) return words(right.every((it, index) => it.time === wrong[index].time) ? 'break.differs' : 'break.late');
        const told = (log) => log.slice(Math.max(0, at - BEFORE), at + 1).map((it) => Latches.decimal(it.word));
        const listed = (log) => (at < log.length ? told(log) : [...told(log), words('break.nothing')]).join(', ');
        return words('break.sent', { wrong: listed(wrong), right: listed(right) });
    }

    /** What a row says, in a visitor's words; where it is known what would have been sent, that too. */
    function saying(row, keys, words, logs = null) {
        if (row.verdict === 'ADMISSIBLE') return [words(keys.length === 1 ? 'break.one' : 'break.apart'), words('end.proved')];
        const ended = words('break.two', { modules: words(`two.${row.module}`), step: row.step });
        if (row.same) return [ended, words('break.same')];
        return [ended, logs ? sent(logs.right, logs.wrong, words) : words('break.differs')];
    }

    return { Book, ordered, touched, saying, sent };
})();

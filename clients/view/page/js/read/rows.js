'use strict';

/** Reads the rows of a campaign or a study, and the total. */
const Rows = (() => {
    const { numbered, whole } = Lines;
    const ROW = /^SCRIPT (\S+) (ADMISSIBLE|LOGIC (0|[1-9]\d*) ([1-7])|MEMORY (0|[1-9]\d*) ([0-7] [0-7]{2} [0-7]{3})) (SAME|DIFFERS)( .*)?$/;
    const TOTAL = /^(?:CAMPAIGN|STUDY) (\d+) ADMISSIBLE (\d+) SAME (\d+)( FORM \d+)?$/;

    const rowOf = (m) => ({
        name: m[1],
        verdict: m[2].split(' ')[0],
        step: m[3] ?? m[5] ?? null,
        module: m[4] === undefined ? null : whole(m[4]),
        address: m[6] ?? null,
        same: m[7] === 'SAME',
        line: m[0],
    });

    /** The rows and the total. */
    function read(text) {
        const found = { rows: [], total: null, unread: [] };
        for (const line of numbered(text)) {
            const row = ROW.exec(line.text);
            const total = found.total ? null : TOTAL.exec(line.text);
            if (row) found.rows.push(rowOf(row));
            else if (total) found.total = { scripts: total[1], admissible: total[2], same: total[3], line: line.text };
            else found.unread.push(line);
        }
        return found;
    }

    return { read };
})();

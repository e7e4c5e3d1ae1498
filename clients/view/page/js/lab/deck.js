'use strict';

/** Takes a deck apart into what a visitor leaves as it is, its fault lines and its count; and puts such parts together to a deck. */
const LabDeck = (() => {
    const { bare, tokens } = Lines;
    const SECTIONS = ['START', 'SIMPLEX', 'PORTS', 'FAULTS', 'ORDER', 'RUN', 'DEBUG'];

    const linesOf = (text) => text.split('\n').map((it) => it.replace(/\r$/, ''));

    const isComment = (line) => line.startsWith('*') || tokens(line).length === 0;

    /** The lines of the program's text, from IMAGE or SOURCE to its END; what stands before are comments. */
    function programOf(lines) {
        const first = lines.findIndex((it) => !isComment(it));
        const end = lines.findIndex((it, at) => at > first && bare(it) === 'END');
        return first >= 0 && end > first ? { lines: lines.slice(first, end + 1), rest: lines.slice(end + 1) } : null;
    }

    /** The lines of each section, with the line that opens it; comments are left out. */
    function sectionsOf(lines) {
        const found = new Map();
        let section = '';
        for (const line of lines) {
            const [word] = tokens(line);
            if (SECTIONS.includes(word) && section !== 'DEBUG') section = word;
            if (!isComment(line)) found.set(section, [...(found.get(section) ?? []), bare(line)]);
        }
        return found;
    }

    /** A deck taken apart, or none where it has no program or no count. The commands of a debug session are left out. */
    function read(text) {
        const program = programOf(linesOf(text));
        const sections = sectionsOf(program?.rest ?? []);
        const count = /^RUN[ \t]+(\d{1,9})$/.exec(sections.get('RUN')?.[0] ?? '');
        if (!count) return null;
        const before = ['START', 'SIMPLEX', 'PORTS'].flatMap((it) => sections.get(it) ?? []);
        return {
            source: bare(program.lines[0]) === 'SOURCE' ? `${program.lines.slice(1).join('\n')}\n` : null,
            head: [...program.lines, ...before],
            faults: (sections.get('FAULTS') ?? []).slice(1),
            order: sections.get('ORDER') ?? [],
            count: Number(count[1]),
        };
    }

    /** The text of a deck with these fault lines and this count. */
    function text(deck, faults, count) {
        const script = faults.length > 0 ? ['FAULTS', ...faults] : [];
        return [...deck.head, ...script, ...deck.order, `RUN ${count}`, ''].join('\n');
    }

    return { read, text };
})();

'use strict';

/** Lines and their words, as docs/FORMATS.md has them. */
const Lines = (() => {
    /** The lines of a text with their numbers, from 1. What is blank at the end of the text is none. */
    function numbered(text) {
        const lines = text.trimEnd().split('\n');
        if (lines.length === 1 && lines[0] === '') return [];
        return lines.map((it, index) => ({ number: index + 1, text: it.endsWith('\r') ? it.slice(0, -1) : it }));
    }

    /** A line without its outer blanks. */
    const bare = (line) => line.replace(/^[ \t]+|[ \t]+$/g, '');

    /** The tokens of a line: runs without blanks. */
    const tokens = (line) => line.match(/[^ \t]+/g) ?? [];

    const whole = (digits) => Number.parseInt(digits, 10);

    /** Tries forms in turn, each a pattern with what to do for a line that has it; whether one was found. */
    function taken(forms, line) {
        for (const [form, take] of forms) {
            const match = form.exec(line);
            if (match) return take(match) !== false;
        }
        return false;
    }

    return { numbered, bare, tokens, whole, taken };
})();

'use strict';

/** Which text of lvdc a text is, by the first line that says so. */
const Kinds = (() => {
    const FIRST_LINES = [
        ['report', /^LVDC (RUN|THROUGH|PLAIN)$/],
        ['session', /^LVDC DEBUG$/],
        ['trace', /^LVDC TRACE( THROUGH)?$/],
        ['soak', /^LVDC SOAK \d+$/],
        ['refusal', /^REFUSED \S+( \d+)?$/],
        ['rows', /^(SCRIPT \S+ (ADMISSIBLE|LOGIC|MEMORY) |(CAMPAIGN|STUDY) \d+ ADMISSIBLE )/],
    ];
    const DECK = /^[ \t]*(IMAGE|SOURCE)[ \t]*$/;

    /** The first lines of a text, without cutting up the whole of it. */
    function* linesOf(text) {
        for (let at = 0; at < text.length;) {
            const end = text.indexOf('\n', at);
            const stop = end < 0 ? text.length : end;
            yield text.slice(at, stop).replace(/\r$/, '');
            at = stop + 1;
        }
    }

    /** The kind of a text: deck, report, session, trace, soak, refusal, rows; empty where nothing stands there; unknown. */
    function of(text) {
        if (text.trim() === '') return 'empty';
        for (const line of linesOf(text)) {
            const found = FIRST_LINES.find(([, form]) => form.test(line));
            if (found) return found[0];
            if (DECK.test(line)) return 'deck';
            if (line.trim() !== '' && !line.startsWith('*')) return 'unknown';
        }
        return 'unknown';
    }

    return { of };
})();

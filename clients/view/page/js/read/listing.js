'use strict';

/** Reads listings: which line of the source stands where, and what the places are called. */
const Listing = (() => {
    const ROW = /^ *[1-9]\d* ([0-3] [0-7]{2} [01] [0-7]{3}) ([0-7]{5}) (.*)$/;
    const NAME = /^NAME ([A-Z][A-Z0-9]{0,7}) ([0-3] [0-7]{2}) - ([0-7]{3})$/;

    /** The instructions by their places, each with its syllable and its line; and the names of words by their addresses. */
    function read(text) {
        const found = { rows: new Map(), names: new Map() };
        for (const line of Lines.numbered(text)) {
            const row = ROW.exec(line.text);
            const name = NAME.exec(line.text);
            if (row) found.rows.set(row[1], { syllable: row[2], line: row[3].trim() });
            else if (name) found.names.set(`${name[2]} ${name[3]}`, name[1]);
        }
        return found;
    }

    /** The line of the source whose instruction stands at a place, where it is still that instruction; else none. */
    function lineAt(listing, place, syllable) {
        const row = listing?.rows.get(place);
        return row?.syllable === syllable ? row.line : null;
    }

    return { read, lineAt };
})();

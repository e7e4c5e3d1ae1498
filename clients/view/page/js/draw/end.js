'use strict';

/** How a run ended, what was refused, and texts that stand as they are. */
const EndView = (() => {
    const { html, code, plain, section, folded } = Element;
    const LINES_SHOWN = 200;

    /** Lines as they are, each with its number. */
    function lines(all) {
        const items = all.slice(0, LINES_SHOWN).map((it) => html('li', { value: it.number }, code(it.text)));
        if (all.length > LINES_SHOWN) items.push(html('li', { class: 'more' }, `and ${all.length - LINES_SHOWN} more`));
        return html('ol', { class: 'lines' }, ...items);
    }

    /** Lines of a text that have none of its forms; nothing where there are none. */
    function unread(all, what) {
        if (all.length === 0) return [];
        const summary = `${Telling.counted(all.length, 'line', 'lines')} of ${what} that this page can't read`;
        return [html('div', { class: 'unread', 'data-lines': all.length }, folded(summary, true, lines(all)))];
    }

    const sentence = (kind, words) => html('p', { class: 'sentence', 'data-kind': kind }, words);

    /** What a run's end is worth, by its report; `always` is whether the script masks by form. */
    function worth(report, always, words) {
        const [claim, ...others] = Claims.sentences(report, always, words);
        if (claim === undefined) return [];
        return [html('p', { class: 'sentence', 'data-claim': Claims.of(report) }, claim), ...others.map((it) => plain(it))];
    }

    /** The end of a run. */
    function run(report, always = false) {
        const words = [Telling.end(report.end, Report.times(report)), Telling.title(report.title)].filter((it) => it !== '').join(' ');
        const made = section('end', 'How it ended', '', sentence(report.end?.kind ?? 'none', words), ...worth(report, always, Words.of('en')));
        if (report.title !== 'PLAIN') made.append(html('p', { class: 'plain', id: 'outvoted' }, Telling.outvoted(report)));
        if (report.end) made.append(html('p', {}, code(report.end.line)));
        made.append(...unread(report.unread, 'the report'));
        return made;
    }

    /** A refusal, with the deck's line that it names where that is there. */
    function refused(found, deck) {
        const text = ['REFUSED', found.cause, ...(found.line === null ? [] : [found.line])].join(' ');
        const made = section('end', 'Refused', '', sentence('refused', Telling.refusal(found)), html('p', {}, code(text)));
        const named = deck.lines.find((it) => it.number === found.line);
        if (named) made.append(plain('The line: ', code(named.text)));
        return made;
    }

    /** The text of `soak`, which is short. */
    const soak = (found) => section('end', 'A soak run', 'A long run under faults drawn from a number; the text sums it up.',
        sentence(found.end?.kind ?? 'none', Telling.end(found.end, null)), lines(found.lines));

    /** What speaks against a deck and a report being of one run. */
    const doubted = (doubts) => section('doubts', 'These two don\'t belong together',
        'The deck and the report that were given are not of one run, so the faults of the deck aren\'t drawn over the report.',
        html('ul', { class: 'acting' }, ...doubts.map((it) => html('li', {}, it))));

    /** A text that is none of those that this page draws. */
    function asItIs(text) {
        return section('text', 'A text', 'This is no text that this page draws. It stands here as it is.', lines(Lines.numbered(text)));
    }

    return { run, worth, refused, soak, doubted, asItIs, unread };
})();

'use strict';

/** What a deck says of itself: its comments, its script, its ports, its orders. */
const DeckView = (() => {
    const { html, code, item, section, folded } = Element;
    const { counted } = Telling;
    const WORDS_SHOWN = 16;

    /** The comments before the program, a paragraph each where an empty one parts them. */
    function comments(deck) {
        const words = deck.comments.filter((it) => !it.startsWith('Exit status:')).join('\n');
        return words.split(/\n{2,}/).map((it) => it.replaceAll('\n', ' ').trim()).filter((it) => it !== '').map((it) => html('p', {}, it));
    }

    const PROGRAMS = {
        SOURCE: ['The program stands in the deck as a source.'],
        IMAGE: ['The program stands in the deck as an image of the memory.'],
    };

    function scriptOf(deck) {
        if (deck.scripts.length > 0) return `It has ${counted(deck.scripts.length, 'script', 'scripts')} of faults.`;
        return deck.faults.length > 0 ? `Its script has ${counted(deck.faults.length, 'fault', 'faults')}.` : 'It has no script of faults.';
    }

    function sentences(deck) {
        const words = [...(PROGRAMS[deck.program] ?? [])];
        if (deck.count !== null) words.push(`The deck asks for ${counted(deck.count, 'instruction time', 'instruction times')}.`);
        words.push(scriptOf(deck));
        if (deck.orders.length === 1) words.push('Its copies latch in an order of its own.');
        if (deck.orders.length > 1) words.push(`Its copies latch in ${deck.orders.length} orders in turn.`);
        return words.join(' ');
    }

    function tape(it) {
        const more = it.words.length > WORDS_SHOWN ? ` and ${it.words.length - WORDS_SHOWN} more` : '';
        return item(`The tape at port ${it.port} gives `, code(it.words.slice(0, WORDS_SHOWN).join(' ')), more, '.');
    }

    function ports(deck) {
        const items = [...deck.tapes.map(tape), ...deck.unplugs.map((it) => item(`At ${Telling.unplug(it)}.`))];
        return items.length > 0 ? [html('ul', { class: 'ports' }, ...items)] : [];
    }

    /** The whole text, put in when it is opened. */
    function wholeText(deck) {
        const place = folded('The deck as it is', false);
        const fill = () => place.append(html('pre', { tabindex: '0' }, deck.lines.map((it) => it.text).join('\n')));
        place.id = 'deck-as-it-is';
        place.addEventListener('toggle', fill, { once: true });
        return place;
    }

    /** The section of a deck. */
    const of = (deck) => section('deck', 'The deck', '', ...comments(deck), html('p', { class: 'plain', id: 'deck-says' }, sentences(deck)),
        ...ports(deck), wholeText(deck), ...EndView.unread(deck.unread, 'the deck'));

    /** What the deck's comments say of its program; nothing where it has none. */
    function told(deck) {
        const said = comments(deck);
        return said.length > 0 ? [section('program', 'What runs here', '', ...said)] : [];
    }

    return { of, told };
})();

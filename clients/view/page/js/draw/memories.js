'use strict';

/** The two twins of the memory side by side: what the script did to their places, and what the report says of them. */
const MemoriesView = (() => {
    const { html, code, plain, sign, section, table } = Element;
    const PLACES_SHOWN = 40;

    const KINDS = {
        damaged: ['✕', 'damaged: bits turned over'],
        stuck: ['▬', 'stuck: bits held fast'],
        dead: ['▒', 'dead: the twin shows nothing there'],
        mended: ['●', 'mended: found bad by a read, and rewritten, but a dead twin stores nothing'],
        lost: ['?', 'lost: the word can\'t be recovered'],
    };
    const BY_FAULTS = { DAMAGE: 'damaged', STICK: 'stuck', DEAD: 'dead' };

    /** The twin that alone holds an address, where its pair is simplex, or none: banks 4 to 7 are twin 1 of pairs 0 to 3. */
    function holderOf(bank, simplex) {
        if (bank >= 4) return 1;
        return simplex.has(String(bank)) ? 0 : null;
    }

    /** Marks a word that can't be recovered, in the one twin that holds it or for both. */
    function addLost(at, address, simplex) {
        const bank = Number(address[0]);
        const holder = holderOf(bank, simplex);
        const place = at(`${bank % 4}${address.slice(1)}`);
        if (holder === null) place.lost = true;
        else place[holder].push('lost');
    }

    /** What happened at each place, by kind and twin, in the order of places; a pair as a whole comes before its places. */
    function places(report, { faults, simplex }) {
        const found = new Map();
        const at = (place) => {
            if (!found.has(place)) found.set(place, { 0: [], 1: [], lost: false });
            return found.get(place);
        };
        for (const it of faults) if (it.twin !== null) at(it.place ?? it.pair)[it.twin].push(BY_FAULTS[it.kind]);
        for (const it of report.repairs) at(it.address)[it.twin].push('mended');
        for (const it of report.memory) if (it.lost) addLost(at, it.address, simplex);
        return [...found].sort(([a], [b]) => (a < b ? -1 : 1));
    }

    /** The sign of a kind with its word, and how often. */
    function marked(kind, count) {
        const times = count > 1 ? ` ×${count}` : '';
        return html('span', { class: `sign ${kind}`, 'data-kind': kind, 'data-count': count }, sign(KINDS[kind][0]), `${kind}${times}`);
    }

    function allMarked(kinds) {
        const counts = new Map();
        for (const kind of kinds) counts.set(kind, (counts.get(kind) ?? 0) + 1);
        return html('span', { class: 'signs' }, ...[...counts].map(([kind, count]) => marked(kind, count)));
    }

    const nameOf = (place) => (place.length === 1 ? html('span', {}, 'all of pair ', code(place)) : code(place));

    /** Place by place what happened in each twin, and where a word is lost what became of it. */
    function placesTable(found) {
        const anyLost = found.some(([, it]) => it.lost);
        const headings = ['place', 'twin 0', 'twin 1', ...(anyLost ? ['the word'] : [])];
        const rows = found.slice(0, PLACES_SHOWN).map(([place, it]) => {
            const word = it.lost ? marked('lost', 1) : '';
            return [nameOf(place), allMarked(it[0]), allMarked(it[1]), ...(anyLost ? [word] : [])];
        });
        return html('div', { class: 'wide' }, table({ class: 'places' }, headings, rows));
    }

    /** What the signs mean that are there. */
    function key(found) {
        const used = new Set(found.flatMap(([, it]) => [...it[0], ...it[1], ...(it.lost ? ['lost'] : [])]));
        const items = Object.entries(KINDS).filter(([kind]) => used.has(kind));
        return html('ul', { class: 'key' }, ...items.map(([kind, [mark, words]]) => html('li', { class: `sign ${kind}` }, sign(mark), words)));
    }

    const SENTENCE = 'Every word is kept twice: the two memories are twin 0 and twin 1. '
        + 'Where one shows a cell with bad parity, the word is taken from the other and the cell is mended.';

    function sentenceOf(simplex) {
        if (simplex.size === 0) return SENTENCE;
        const pairs = `${simplex.size === 1 ? 'pair' : 'pairs'} ${[...simplex].sort().join(', ')}`;
        return `${SENTENCE} Not so in ${pairs}: there each twin holds words of its own, and nothing is mended.`;
    }

    /** The section of the memories. */
    function of(report, deck) {
        const found = places(report, deck);
        const made = section('memories', 'The two memories', sentenceOf(deck.simplex));
        if (found.length === 0) made.append(plain('Nothing happened to either, as far as these texts say.'));
        else made.append(placesTable(found), key(found));
        if (found.length > PLACES_SHOWN) made.append(plain(`and ${found.length - PLACES_SHOWN} more places`));
        return made;
    }

    return { of };
})();

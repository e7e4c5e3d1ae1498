'use strict';

/** The machine: seven modules in three copies each. */
const MachineView = (() => {
    const { html, unseen, section } = Element;
    const { counted } = Telling;
    const NOTHING = { count: 0, hurt: 0 };

    const keyOf = (it) => `${it.module}-${it.copy}`;

    /** How often each copy differed, and how many fault lines name it. */
    function tallies(report, faults) {
        const found = new Map();
        const at = (it) => {
            if (!found.has(keyOf(it))) found.set(keyOf(it), { ...NOTHING });
            return found.get(keyOf(it));
        };
        for (const it of report.wrong) at(it).count = it.count;
        for (const it of faults) if (it.module) at(it).hurt += 1;
        return found;
    }

    function kindOf(tally) {
        if (tally.count > 0) return 'differed';
        return tally.hurt > 0 ? 'hurt' : 'well';
    }

    const named = ({ hurt }) => (hurt > 0 ? `is named by ${counted(hurt, 'fault line', 'fault lines')}` : 'is named by no fault line');
    const differed = ({ count }) => (count > 0 ? `differed from the vote in ${counted(count, 'step', 'steps')}` : 'never differed from the vote');

    /** What is known of a copy: of its faults by the deck, of its differences by the report. */
    function saying(module, copy, tally, known) {
        const words = [...(known.deck ? [named(tally)] : []), ...(known.report ? [differed(tally)] : [])];
        return `Copy ${copy} of the ${module.name} ${words.join(' and ')}.`;
    }

    function copyItem(module, copy, tally, known) {
        const kind = kindOf(tally);
        const words = saying(module, copy, tally, known);
        const count = html('span', { class: 'tally', 'aria-hidden': 'true' }, tally.count > 0 ? String(tally.count) : '');
        return html('li', { class: `copy ${kind}`, title: words, 'data-copy': copy, 'data-count': tally.count, 'data-hurt': tally.hurt },
            Lamp.shape(kind), count, unseen(words));
    }

    /** One module: its name, what it does, its three copies, and whether the run ended by it. */
    function moduleItem(module, found, end, known) {
        const copies = Parts.COPIES.map((copy) => {
            const tally = found.get(keyOf({ module: module.number, copy })) ?? NOTHING;
            return copyItem(module, copy, tally, known);
        });
        const ended = end?.module === module.number;
        return html('li', { class: ended ? 'module ended' : 'module', 'data-module': module.number },
            html('h3', {}, module.name), html('p', { class: 'does' }, module.does), ...(ended ? [html('p', { class: 'ended-run' }, 'ended the run')] : []),
            html('ol', { class: 'copies' }, ...copies));
    }

    const SENTENCE = 'Each part of the computer exists three times: copies 1, 2 and 3. '
        + 'In every step a voter takes, bit by bit, what at least two of the three say.';
    const DIFFERED = 'differed from the vote, in so many steps';
    const ONLY_DECK = { well: 'no fault line names it', hurt: 'a fault line names it' };
    const ONLY_REPORT = { well: 'never differed from the vote', differed: DIFFERED };
    const BOTH = {
        well: 'no fault line names it, and it never differed from the vote',
        hurt: 'a fault line names it, and it never differed from the vote',
        differed: DIFFERED,
    };

    function keyFor(known) {
        if (!known.report) return ONLY_DECK;
        return known.deck ? BOTH : ONLY_REPORT;
    }

    /** The section of the machine. Where the deck or the report isn't there, nothing is said of what it would say. */
    function of(report, deck) {
        const known = { deck: deck.lines.length > 0, report: report.title !== '' };
        const found = tallies(report, deck.faults);
        const modules = html('ol', { class: 'modules' }, ...Parts.MODULES.map((it) => moduleItem(it, found, report.end, known)));
        return section('machine', 'The machine', SENTENCE, modules, Lamp.key(keyFor(known)));
    }

    return { of };
})();

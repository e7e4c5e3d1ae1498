'use strict';

/** Reads the fault lines of decks and campaigns. */
const Faults = (() => {
    const STEPS = 3000000;

    const FIELDS = {
        module: '[1-7]',
        copy: '[1-3]',
        latch: '[0-4]',
        first: '0|[1-9]\\d{0,6}',
        last: '0|[1-9]\\d{0,6}',
        twin: '[01]',
        pair: '[0-3]',
        sector: '0?[0-7]|1[0-7]',
        location: '[0-3][0-7]{2}|[0-7]{1,2}',
        mask: '[0-3]?[0-7]{1,8}',
        value: '[0-3]?[0-7]{1,8}',
        cellMask: '[01]?[0-7]{1,9}',
        cellValue: '[01]?[0-7]{1,9}',
    };

    /** The form of a fault line: a pattern over the whole line, and at which of its groups each field stands. */
    function formOf(kind, ...names) {
        const fields = names.map((it) => `(${FIELDS[it]})`);
        const groups = Object.fromEntries(Object.keys(FIELDS).map((it) => [it, names.indexOf(it) + 1]));
        return { kind, groups, pattern: new RegExp(`^[ \\t]*${[kind, ...fields].join('[ \\t]+')}[ \\t]*$`) };
    }

    const FORMS = new Map([
        formOf('FLIP', 'module', 'copy', 'first', 'last', 'latch', 'mask'),
        formOf('FORCE', 'module', 'copy', 'first', 'last', 'latch', 'mask', 'value'),
        formOf('LAG', 'module', 'copy', 'first', 'last'),
        formOf('DEAF', 'module', 'copy', 'first', 'last'),
        formOf('DAMAGE', 'twin', 'pair', 'sector', 'location', 'first', 'cellMask'),
        formOf('STICK', 'twin', 'pair', 'sector', 'location', 'first', 'last', 'cellMask', 'cellValue'),
        formOf('DEAD', 'twin', 'pair', 'first', 'last'),
    ].map((it) => [it.kind, it]));

    const KIND = /[A-Z]+/;

    const numberAt = (match, group) => (group === 0 ? null : Number(match[group]));

    /** A place in the digits that reports use. */
    function placeAt(match, { pair, sector, location }) {
        return location === 0 ? null : `${match[pair]} ${match[sector].padStart(2, '0')} ${match[location].padStart(3, '0')}`;
    }

    /** An event by its fields: of a copy, or of a memory with a pair and perhaps a place. A field that its kind hasn't is none. */
    function eventOf(kind, match, groups, line) {
        const first = Number(match[groups.first]);
        return {
            kind,
            line,
            module: numberAt(match, groups.module),
            copy: numberAt(match, groups.copy),
            latch: numberAt(match, groups.latch),
            twin: numberAt(match, groups.twin),
            pair: groups.pair === 0 ? null : match[groups.pair],
            place: placeAt(match, groups),
            first,
            last: numberAt(match, groups.last) ?? first,
        };
    }

    /** Whether the numbers go together, each having its form. */
    function inRange(it) {
        return it.first <= it.last && it.last < STEPS && (it.latch === null || it.latch < Parts.module(it.module).latches.length);
    }

    /** What a fault line says, or none where it has not the form. */
    function of(line) {
        const form = FORMS.get(KIND.exec(line.text)?.[0]);
        const match = form ? form.pattern.exec(line.text) : null;
        if (!match) return null;
        const event = eventOf(form.kind, match, form.groups, line);
        return inRange(event) ? event : null;
    }

    /** Whether an event acts in one of these steps. */
    const actsIn = (it, first, last) => it.first <= last && first <= it.last;

    return { of, actsIn };
})();

'use strict';

/** The copies as buttons, for a screen that has no room for lamps which a finger can hit. */
const TurnView = (() => {
    const { html } = Element;
    const { keyOf } = Trace;
    const SIGNS = { hurt: '✗', differed: '✗' };

    class Turn {
        /** `touch` is told which copy was pressed. */
        constructor(touch) {
            this.names = new Map(Parts.MODULES.map(({ number }) => [number, html('h3', {})]));
            this.copies = Parts.MODULES.flatMap(({ number: module }) => Parts.COPIES.map((copy) => ({
                module, copy, button: html('button', { type: 'button', click: () => touch({ module, copy }) }),
            })));
            const row = ([number, name]) => html('div', { class: 'turn-part' }, name, ...this.copies.filter((it) => it.module === number).map((it) => it.button));
            this.element = html('div', { class: 'kiosk-turn' }, ...[...this.names].map(row));
        }

        /** Shows what became of the copies in a moment, and which a visitor has hurt. */
        show(moment, hurt, words) {
            for (const [number, name] of this.names) name.textContent = words(`module.${number}`);
            for (const { module, copy, button } of this.copies) {
                const key = keyOf(module, copy);
                const kind = moment?.lamps.get(key) ?? 'well';
                const state = [words(`lamp.${kind}`), ...(hurt.includes(key) ? [words('lamp.marked')] : [])].join(', ');
                // one that is right and outvoted by two others isn't marked as wrong
                button.dataset.kind = kind === 'differed' && !hurt.includes(key) ? 'alone' : kind;
                button.classList.toggle('marked', hurt.includes(key));
                button.textContent = `${copy} ${SIGNS[button.dataset.kind] ?? ''}`;
                button.setAttribute('aria-label', words('lamp', { module: words(`module.${module}`), copy, state }));
            }
        }
    }

    return { Turn };
})();

'use strict';

/** The tabs by which a visitor chooses what is shown. The style says which of them there are: beside a machine that is always in sight a few, on
 * small screens one for each thing. What is chosen stands in the body's `data-panel`, by which the style shows it. */
class LabTabs {
    /** Each panel with the element that its tab controls. */
    static PANELS = { copies: 'board', memory: 'board', press: 'press', broken: 'broken', outcome: 'outcome', share: 'share', more: 'choices' };

    static FIRST = 'copies';

    /** What shares the panel of another tab, where it has none of its own. */
    static SHARED = { broken: 'press' };

    /** `changed` is called when something else is shown. */
    constructor(changed) {
        Object.assign(this, { changed, before: null });
        this.tabs = new Map(Object.keys(LabTabs.PANELS).map((it) => [it, this.tab(it)]));
        this.place = LabSight.place('tabs');
        this.place.replaceChildren(...this.tabs.values());
        Roving.over(this.place, [...this.tabs.values()]);
        window.addEventListener('resize', () => this.turnTo(this.asked));
    }

    tab(name) {
        const act = () => { this.before = null; this.turnTo(name); };
        return Element.html('button', { type: 'button', role: 'tab', id: `tab-${name}`, 'aria-controls': LabTabs.PANELS[name], click: act });
    }

    /** Shows a panel; where it has no tab the one that it shares, or the first of those that there are. */
    turnTo(name) {
        this.asked = name;
        const there = [...this.tabs].filter(([, it]) => it.checkVisibility()).map(([it]) => it);
        const shown = [name, LabTabs.SHARED[name], there[0]].find((it) => there.includes(it));
        document.body.dataset.panel = shown;
        for (const [it, tab] of this.tabs) {
            tab.setAttribute('aria-selected', String(it === shown));
            tab.tabIndex = it === shown ? 0 : -1;
        }
        this.changed();
    }

    /** Shows a panel for as long as something lasts. */
    showFor(name) {
        this.before ??= this.asked;
        this.turnTo(name);
    }

    /** Goes back to what was shown before that, unless a visitor has chosen something since. */
    goBack() {
        if (this.before !== null) this.turnTo(this.before);
        this.before = null;
    }

    /** Names the tabs, with how much was broken. */
    speak(words, broken) {
        for (const [name, it] of this.tabs) {
            const count = broken > 0 && ['press', 'broken'].includes(name) ? [Element.html('span', { class: 'lab-count' }, String(broken))] : [];
            it.replaceChildren(words(`lab.tab.${name}`), ...count);
        }
    }
}

'use strict';

/** A list of which so many items are shown as its box has room for, with buttons that turn its pages. The room is what the style gives to the box. */
class LabPages {
    /** `turner` is where the buttons stand; it is hidden where all items have room. */
    constructor(turner, words) {
        Object.assign(this, { turner, box: null, items: [], firsts: [0], page: 0, seen: 0 });
        this.sizes = new ResizeObserver(() => this.lay());
        this.where = Element.html('span', {});
        this.buttons = [['‹', -1], ['›', 1]].map(([sign, by]) => Element.html('button', { type: 'button', click: () => this.turn(by) }, sign));
        turner.replaceChildren(this.buttons[0], this.where, this.buttons[1]);
        this.speak(words);
    }

    /** Shows these items of a box, and of its pages the one that has the item at `seen`. */
    show(box, items, seen = 0) {
        if (box !== this.box) {
            this.sizes.disconnect();
            this.sizes.observe(box);
        }
        Object.assign(this, { box, items, seen: Math.max(0, seen) });
        this.lay();
    }

    speak(words) {
        const names = ['lab.page.back', 'lab.page.on'];
        this.buttons.forEach((it, at) => it.setAttribute('aria-label', words(names[at])));
    }

    /** Shares the items out over pages: one where all have room, else as many as are needed beside the buttons. */
    lay() {
        for (const it of this.items) it.hidden = false;
        this.turner.hidden = true;
        this.firsts = this.shared();
        if (this.firsts.length > 1) {
            this.turner.hidden = false;
            this.firsts = this.shared();
        }
        this.turnTo(this.firsts.findLastIndex((it) => it <= this.seen));
    }

    /** The index of the first item of each page. */
    shared() {
        const room = this.box.clientHeight - (this.box.querySelector('thead')?.offsetHeight ?? 0);
        const firsts = [0];
        let used = 0;
        this.items.forEach((it, at) => {
            const { height } = it.getBoundingClientRect();
            if (at > firsts.at(-1) && used + height > room + 1) {
                firsts.push(at);
                used = 0;
            }
            used += height;
        });
        return firsts;
    }

    /** Turns on or back; behind the last page comes the first. */
    turn(by) {
        const count = this.firsts.length;
        this.turnTo((this.page + by + count) % count);
        this.seen = this.firsts[this.page];
    }

    turnTo(page) {
        const count = this.firsts.length;
        this.page = page;
        const [first, next] = [this.firsts[this.page], this.firsts[this.page + 1] ?? this.items.length];
        this.items.forEach((it, at) => { it.hidden = at < first || at >= next; });
        this.where.textContent = `${this.page + 1} / ${count}`;
    }
}

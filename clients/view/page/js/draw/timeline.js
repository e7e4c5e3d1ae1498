'use strict';

/** What of a run is in view, from which step to which, and where the cursor stands: a step, and a lane or all lanes. */
const Timeline = (() => {
    const { html, code, unseen, item } = Element;
    const LEAST_STEPS = 6;
    const TOLD_AT_ONCE = 6;
    const TICK_EVERY_PIXELS = 90;
    const TOLERANCE = 2;

    const clamped = (value, least, most) => Math.max(least, Math.min(most, value));

    /** Every how many steps one is numbered: each, or so many instruction times as make a round number of them. */
    function tickUnit(least) {
        if (least <= 1) return 1;
        for (let power = Parts.firstStepOf(1); ; power *= 10) {
            const unit = [1, 2, 5].map((it) => it * power).find((it) => it >= least);
            if (unit) return unit;
        }
    }

    /** The steps that are numbered. */
    function ticksOf(scale) {
        const unit = tickUnit((scale.to - scale.from) * TICK_EVERY_PIXELS / scale.width);
        const first = Math.ceil(scale.from / unit) * unit;
        return Array.from({ length: Math.max(0, Math.ceil((scale.to - first) / unit)) }, (_, at) => first + at * unit);
    }

    /** The label of a lane, with the number of its marks. */
    function label(lane) {
        const count = lane.marks.length;
        return html('li', { 'data-lane': lane.key, 'data-marks': count }, html('span', {}, lane.label),
            html('span', { class: 'tally' }, count > 0 ? String(count) : '', unseen(count === 1 ? ' mark' : ' marks')));
    }

    const markItem = (mark) => item(`${Marks.says(mark)} `, code(Marks.lineOf(mark)));

    class View {
        constructor(lanes, steps, canvas, told) {
            Object.assign(this, { lanes, steps, canvas, told, from: 0, to: steps, step: null, lane: null });
            this.labels = lanes.map(label);
            this.axis = html('div', { class: 'axis' });
            this.cursor = html('div', { class: 'cursor', hidden: true });
        }

        // ---- what is in view

        scale() { return new Lanes.Scale(this.from, this.to, this.canvas.clientWidth); }

        draw() {
            if (this.canvas.clientWidth === 0) return;
            Lanes.draw(this.canvas, this.lanes, this.scale(), ticksOf(this.scale()));
            this.drawAxis();
            this.placeCursor();
        }

        /** Numbers some of the steps, each where it begins. */
        drawAxis() {
            const scale = this.scale();
            this.axis.replaceChildren(...ticksOf(scale).map((step, at) => {
                const tick = html('span', {}, at === 0 ? `step ${step}` : String(step));
                tick.style.left = `${100 * scale.xOf(step) / scale.width}%`;
                return tick;
            }));
        }

        show(from, span) {
            const width = clamped(span, Math.min(LEAST_STEPS, this.steps), this.steps);
            this.from = clamped(from, 0, this.steps - width);
            this.to = this.from + width;
            this.draw();
        }

        /** Shows so many times as many steps, and leaves this one where it is. */
        zoom(factor, around = this.middle()) {
            const span = this.to - this.from;
            const wanted = clamped(span * factor, Math.min(LEAST_STEPS, this.steps), this.steps);
            this.show(around - (around - this.from) * wanted / span, wanted);
        }

        whole() { this.show(0, this.steps); }

        move(part) { this.show(this.from + part * (this.to - this.from), this.to - this.from); }

        middle() { return this.step ?? (this.from + this.to) / 2; }

        // ---- the cursor

        /** Puts the cursor over the lanes, which stay as they are drawn. */
        placeCursor() {
            const scale = this.scale();
            this.cursor.hidden = this.step === null || this.step < this.from || this.step >= this.to;
            this.cursor.style.left = `${100 * scale.xOf(this.step) / scale.width}%`;
            this.cursor.style.width = `${100 / (this.to - this.from)}%`;
            this.labels.forEach((it, index) => it.classList.toggle('chosen', index === this.lane));
        }

        /** Puts the cursor on a step and brings that into view. */
        goTo(step, lane = this.lane) {
            Object.assign(this, { step: clamped(step, 0, this.steps - 1), lane });
            const span = this.to - this.from;
            if (this.step < this.from || this.step >= this.to) this.show(this.step - span / 2, span);
            else this.placeCursor();
            this.tell(this.step, this.step);
        }

        /** Puts the cursor where a pointer is, which may stand on many steps at once. */
        point(x, y) {
            const scale = this.scale();
            this.step = clamped(scale.stepAt(x), 0, this.steps - 1);
            this.lane = clamped(Math.floor(y / this.canvas.clientHeight * this.lanes.length), 0, this.lanes.length - 1);
            const first = clamped(scale.stepAt(x - TOLERANCE), 0, this.step);
            const last = clamped(scale.stepAt(x + TOLERANCE), this.step, this.steps - 1);
            this.placeCursor();
            this.tell(first, last);
        }

        /** To the nearest mark after the cursor, or before it. */
        toMark(later) {
            const at = this.step ?? -1;
            const nearest = (lane) => (later ? lane.nextAfter(at) : lane.lastBefore(at));
            const steps = this.chosen().map(nearest).filter((it) => it !== null && it < this.steps);
            if (steps.length > 0) this.goTo(later ? Math.min(...steps) : Math.max(...steps));
        }

        /** The lane above or below; before the first one stand all lanes together. */
        toLane(down) {
            const lane = clamped((this.lane ?? -1) + down, -1, this.lanes.length - 1);
            this.goTo(this.step ?? 0, lane < 0 ? null : lane);
        }

        // ---- what is told

        /** The lanes that the cursor is in. */
        chosen() { return this.lane === null ? this.lanes : [this.lanes[this.lane]]; }

        /** Names what stands in these steps, in the lanes that the cursor is in. */
        tell(first, last) {
            const found = this.chosen().flatMap((it) => it.under(first, last));
            const items = found.slice(0, TOLD_AT_ONCE).map(markItem);
            if (found.length > TOLD_AT_ONCE) items.push(item(`and ${found.length - TOLD_AT_ONCE} more`));
            const words = `${this.whereTold(first, last)}: ${found.length === 0 ? 'nothing here.' : ''}`;
            this.told.replaceChildren(html('p', {}, words), html('ul', {}, ...items));
        }

        whereTold(first, last) {
            const lane = this.lane === null ? '' : `, ${this.lanes[this.lane].label}`;
            if (first !== last) return `Steps ${first} to ${last}${lane}`;
            return `Step ${first} (phase ${Parts.phaseOf(first)} of instruction time ${Parts.timeOf(first)})${lane}`;
        }
    }

    return { View };
})();

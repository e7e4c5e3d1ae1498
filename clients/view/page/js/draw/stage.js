'use strict';

/** The drawing with what a visitor steps through it by: the instruction, a slider over steps, buttons, and what happens in words. */
const Stage = (() => {
    const { html, button } = Element;
    const PACE = { least: 1100, word: 1500, repair: 1500, copies: 1300 };

    /** How long a moment is shown that goes by itself: longer where more is to be seen. */
    function paceOf(moment) {
        const unwell = moment.wrong.size > 0 || [...moment.lamps.values()].some((it) => it === 'healed');
        return PACE.least + (moment.exchange ? PACE.word : 0) + (moment.repair ? PACE.repair : 0) + (unwell ? PACE.copies : 0);
    }

    /** Whether a fault is to be seen in a moment. */
    const isHurt = (moment) => moment.faults.length > 0 || moment.repair !== null;

    class Stage {
        constructor({ words, places, simplex }) {
            Object.assign(this, { words, moments: [], at: 0, player: null, loops: false });
            this.drawing = new Board.Drawing({ words, places, simplex });
            this.heading = html('p', { class: 'instruction' });
            this.where = html('p', { class: 'moment-where' });
            this.between = html('div', { class: 'between' });
            this.happens = html('ul', { class: 'happens', 'aria-live': 'polite' });
            this.slider = html('input', { type: 'range', class: 'steps', input: () => this.goToStep(Number(this.slider.value)) });
            this.controls = html('div', { class: 'buttons slide' });
            this.box = html('div', { class: 'machine-box' }, this.drawing.element);
            const head = html('div', { class: 'stage-head' }, this.heading, this.where);
            this.element = html('div', { class: 'stage' }, head, this.box, this.controls, this.between, this.happens);
            this.buildControls();
        }

        buildControls() {
            const { words } = this;
            const playing = words(this.player === null ? 'control.play' : 'control.pause');
            this.playButton = button(playing, playing, () => this.toggle());
            this.faultButton = button(words('control.fault'), words('control.fault'), () => this.toFault());
            this.octalButton = button(words('control.octal'), words('control.octal'), () => this.useOctal(!this.words.octal));
            this.octalButton.className = 'octal-button';
            this.faultButton.className = 'fault-button';
            this.octalButton.setAttribute('aria-pressed', String(words.octal));
            this.slider.setAttribute('aria-label', words('control.time'));
            this.controls.replaceChildren(button('←', words('control.back'), () => this.go(this.at - 1, true)), this.slider,
                button('→', words('control.on'), () => this.go(this.at + 1, true)), this.playButton, this.faultButton, this.octalButton);
        }

        /** The moment that is shown. */
        get moment() { return this.moments[this.at]; }

        /** Shows these moments from one of them on. */
        use(moments, at = 0) {
            this.rest();
            this.moments = moments;
            this.slider.min = String(moments[0].step);
            this.slider.max = String(moments.at(-1).step);
            this.faultButton.hidden = !moments.some(isHurt);
            this.go(at, false);
        }

        speak(words) {
            this.words = words;
            this.buildControls();
            this.drawing.speak(words);
            if (this.moment) this.tell();
        }

        /** Spells all in octal, or in words. The button that was pressed keeps the focus. */
        useOctal(octal) {
            const isPressed = document.activeElement === this.octalButton;
            this.speak(Words.of(this.words.language, octal));
            if (isPressed) this.octalButton.focus();
            this.element.dispatchEvent(new CustomEvent('moment', { detail: this.moment }));
        }

        // ---- going

        /** Goes to the last moment up to a step. */
        goToStep(step) { this.go(this.moments.findLastIndex((it) => it.step <= step), false); }

        go(at, moving) {
            const wanted = Math.max(0, Math.min(this.moments.length - 1, at));
            this.drawing.show(this.moments[wanted], moving);
            this.at = wanted;
            this.slider.value = String(this.moment.step);
            this.tell();
            this.element.dispatchEvent(new CustomEvent('moment', { detail: this.moment }));
        }

        toFault() {
            const later = this.moments.findIndex((it, at) => at > this.at && isHurt(it));
            const first = this.moments.findIndex(isHurt);
            this.go(later < 0 ? first : later, true);
        }

        /** Goes on by itself up to the end, or stops doing so; at the end it begins again. */
        toggle() {
            if (this.player !== null) this.rest();
            else this.play(this.at === this.moments.length - 1 ? 0 : this.at);
        }

        play(from) {
            this.rest();
            this.go(from, true);
            this.playButton.textContent = this.words('control.pause');
            this.player = window.setTimeout(() => this.playOn(), paceOf(this.moment));
        }

        playOn() {
            const isLast = this.at === this.moments.length - 1;
            if (!this.element.isConnected || (isLast && !this.loops)) {
                this.rest();
                return;
            }
            this.go(isLast ? 0 : this.at + 1, true);
            this.player = window.setTimeout(() => this.playOn(), paceOf(this.moment));
        }

        rest() {
            window.clearTimeout(this.player);
            this.player = null;
            this.playButton.textContent = this.words('control.play');
        }

        // ---- telling

        tell() {
            const { moment, words } = this;
            const last = this.moments.at(-1).step;
            const where = Saying.where(moment, last, words);
            this.where.textContent = where;
            this.slider.setAttribute('aria-valuetext', where);
            this.heading.replaceChildren(...this.instructionParts(moment.instruction));
            this.happens.replaceChildren(...Saying.of(moment, words).map((it) => html('li', {}, it)), ...this.faultLines(moment));
        }

        /** What the instruction does; or, in octal, its name, and the line of the source that it is. */
        instructionParts(instruction) {
            if (!instruction) return [this.words('moment.nothing')];
            if (!this.words.octal) return [this.words(`does.${instruction.name}`)];
            const line = instruction.line ? [html('span', { class: 'source-line' }, instruction.line)] : [];
            return [html('code', { class: 'instruction-name' }, instruction.text), ...line];
        }

        /** The fault lines that act, for whoever reads octal. */
        faultLines(moment) {
            if (!this.words.octal) return [];
            return moment.faults.map((it) => html('li', { class: 'fault-line' }, html('code', {}, it.line.text.trim())));
        }
    }

    return { Stage };
})();

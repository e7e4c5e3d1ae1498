'use strict';

/** A debug session: a slider over its commands. */
const SessionView = (() => {
    const { html, code, plain, unseen, item, section, button } = Element;
    const { counted } = Telling;
    const PLAY_EVERY = 900;
    const FAULTS_SHOWN = 8;

    // ---- where the machine stands

    /** Where the machine stands, in words. */
    function whereTold({ went }) {
        if (!went) return 'Before the first instruction.';
        if (went.kind === 'at') return `${counted(went.times, 'instruction time was', 'instruction times were')} made.`;
        if (went.kind === 'limit') return `The ${counted(went.times, 'instruction time', 'instruction times')} that the deck asks for were made.`;
        return Telling.end(went.end, null);
    }

    /** The steps that were made in the last move. */
    function stepsOf(move) {
        const first = Parts.firstStepOf(move.before);
        const end = move.went?.end?.step ?? null;
        return { first, last: end ?? Math.max(first, Parts.firstStepOf(move.after) - 1) };
    }

    /** The faults that acted in the last move, on copies and on memories. */
    function faultsIn(deck, move) {
        if (!move.went) return [];
        const { first, last } = stepsOf(move);
        return deck.faults.filter((it) => Faults.actsIn(it, first, last));
    }

    /** These faults. */
    function faultList(faults) {
        const items = faults.slice(0, FAULTS_SHOWN).map((it) => item(`${Telling.fault(it)} `, code(it.line.text.trim())));
        if (faults.length > FAULTS_SHOWN) items.push(item(`and ${faults.length - FAULTS_SHOWN} more`));
        return html('ul', { class: 'acting' }, ...items);
    }

    // ---- the lamps

    function lampKind(apart, hurt) {
        if (apart) return 'differed';
        return hurt ? 'hurt' : 'well';
    }

    function lampSays(copy, own, apart, hurt) {
        const says = own ? `agrees with ${apart ? 'no other copy' : 'another copy'}` : 'was not asked';
        return `Copy ${copy} ${says}${hurt ? ', and a fault acted on it' : ''}.`;
    }

    function lamp(module, copy, copies, faults) {
        const own = copies.find((it) => it.copy === copy);
        const hurt = faults.some((it) => it.module === module.number && it.copy === copy);
        const apart = own !== undefined && CopiesView.isApart(own, copies);
        const kind = lampKind(apart, hurt);
        const words = lampSays(copy, own, apart, hurt);
        return html('li', { class: `copy ${kind}${own ? '' : ' unasked'}`, title: words, 'data-copy': copy }, Lamp.shape(kind), unseen(words));
    }

    /** The lamps of a module, under a button that pins what its copies say; a second touch lets go of it. */
    function moduleItem(module, found, faults, { chosen, pinned }, choose) {
        const copies = found.copies.get(module.number) ?? [];
        const attributes = {
            type: 'button',
            'aria-pressed': String(pinned === module.number),
            class: chosen === module.number ? 'shown' : '',
            disabled: copies.length === 0,
            click: () => choose(module.number),
        };
        return html('li', { class: 'module', 'data-module': module.number }, html('h3', {}, html('button', attributes, module.name)),
            html('ol', { class: 'copies' }, ...Parts.COPIES.map((copy) => lamp(module, copy, copies, faults))));
    }

    const KEY = { well: 'agrees with another copy', differed: 'agrees with no other copy' };
    const KEY_WITH_FAULTS = { ...KEY, hurt: 'a fault acted on it in the steps just made' };

    // ---- the commands

    /** A command with its answer, and what the deck's comment says of it. */
    function commandParts(it, index, commands, deck) {
        const comment = deck.commands[index]?.command === it.command ? deck.commands[index].comment : '';
        const count = html('span', { class: 'small' }, `command ${index + 1} of ${commands.length}: `);
        return [html('p', { class: 'command' }, count, code(it.command)), ...(comment ? [plain(comment)] : []),
            html('pre', { class: 'answer', tabindex: '0' }, it.lines.join('\n'))];
    }

    const registerParts = (found) => (found.registers.size === 0 ? [] : [html('div', { class: 'wide' }, Tables.registers(found.registers))]);

    /** A visitor's walk through a session: at which of its commands, and which module is looked at. */
    class Walk {
        constructor(session, deck, onMove) {
            Object.assign(this, { commands: session.commands, deck, onMove, at: 0, module: null, player: null });
            this.place = html('div', { class: 'standing' });
            this.slider = html('input', {
                type: 'range', id: 'slider', min: 0, max: session.commands.length - 1, value: 0, 'aria-label': 'Command',
                input: () => this.go(Number(this.slider.value)),
            });
        }

        go(at) {
            this.at = Math.max(0, Math.min(this.commands.length - 1, at));
            this.slider.value = String(this.at);
            this.draw();
            const { move } = this.commands[this.at];
            if (move.went) this.onMove(stepsOf(move).last);
        }

        /** The module to look at: the chosen one, else the first whose copies differ, else the first that was asked. */
        moduleShown({ copies }) {
            if (this.module !== null && copies.has(this.module)) return this.module;
            const asked = [...copies.keys()].sort();
            const differs = (it) => copies.get(it).some((copy) => CopiesView.isApart(copy, copies.get(it)));
            return asked.find(differs) ?? asked[0] ?? null;
        }

        draw() {
            const command = this.commands[this.at];
            const found = SessionText.standing(this.commands, this.at);
            const faults = faultsIn(this.deck, command.move);
            const where = whereTold(command.move);
            this.slider.setAttribute('aria-valuetext', `${command.command}. ${where}`);
            this.place.replaceChildren(...commandParts(command, this.at, this.commands, this.deck),
                html('p', { class: 'where' }, where), ...(this.deck.faults.length > 0 ? [faultList(faults)] : []),
                ...this.copyParts(found, faults), ...registerParts(found));
        }

        /** The lamps, and the copies of the module that is looked at. */
        copyParts(found, faults) {
            if (found.copies.size === 0) return [];
            const chosen = this.moduleShown(found);
            const modules = Parts.MODULES.map((it) => moduleItem(it, found, faults, { chosen, pinned: this.module }, (module) => this.choose(module)));
            return [html('ol', { class: 'modules lamps' }, ...modules), Lamp.key(this.deck.faults.length > 0 ? KEY_WITH_FAULTS : KEY),
                CopiesView.of(Parts.module(chosen), found.copies.get(chosen))];
        }

        choose(module) {
            this.module = this.module === module ? null : module;
            this.draw();
            this.place.querySelector(`.module[data-module="${module}"] button`).focus();
        }

        /** Goes on by itself up to the end, or stops doing so. */
        play(control) {
            if (this.player !== null) {
                this.rest(control);
                return;
            }
            if (this.at === this.commands.length - 1) this.go(0);
            control.textContent = 'pause';
            this.player = window.setInterval(() => {
                if (this.at === this.commands.length - 1 || !this.place.isConnected) this.rest(control);
                else this.go(this.at + 1);
            }, PLAY_EVERY);
        }

        rest(control) {
            window.clearInterval(this.player);
            this.player = null;
            control.textContent = 'play';
        }
    }

    function controls(walk) {
        const play = button('play', 'Go on by itself, or pause', () => walk.play(play));
        const back = button('←', 'Back', () => walk.go(walk.at - 1));
        const on = button('→', 'On', () => walk.go(walk.at + 1));
        return html('p', { class: 'buttons slide' }, back, walk.slider, on, play);
    }

    const SENTENCE = 'Move through the commands: what was asked and answered, the registers, and what each copy says.';

    /** The section of a session. */
    function of(session, deck, onMove) {
        const unread = EndView.unread(session.unread, 'the session');
        if (session.commands.length === 0) return section('session', 'The session', 'The session has no command.', ...unread);
        const walk = new Walk(session, deck, onMove);
        walk.draw();
        return section('session', 'The session', SENTENCE, controls(walk), walk.place, ...unread);
    }

    return { of };
})();

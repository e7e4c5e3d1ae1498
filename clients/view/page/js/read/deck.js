'use strict';

/** Reads what decks and campaigns say besides their program: comments, ports, faults, orders, the count, the commands, the scripts. */
const Deck = (() => {
    const { numbered, bare, tokens, whole } = Lines;
    const PORT = '([0-3][0-7]{2}|[0-7]{1,2})';

    const empty = () => ({
        comments: [],
        program: '',
        start: '',
        simplex: new Set(),
        tapes: [],
        unplugs: [],
        faults: [],
        orders: [],
        words: new Map(),
        count: null,
        commands: [],
        scripts: [],
        lines: [],
        unread: [],
    });

    const SIMPLEX = /^SIMPLEX( [0-3]){1,4}$/;

    /** The pairs that a line SIMPLEX names; those of the image and those of the deck are simplex. */
    function addSimplex(deck, line) {
        for (const it of line.split(' ').slice(1)) deck.simplex.add(it);
    }

    /** The lines that open a section, and what they say themselves; a line without its form is not read. */
    const SECTION_FORMS = {
        START: [/^START (\S+)$/, (deck, m) => { deck.start = m[1]; }],
        SIMPLEX: [SIMPLEX, (deck, m) => addSimplex(deck, m[0])],
        PORTS: [/^PORTS$/, () => {}],
        FAULTS: [/^FAULTS$/, () => {}],
        ORDER: [/^ORDER$/, () => {}],
        RUN: [/^RUN (\d{1,9})$/, (deck, m) => { deck.count = whole(m[1]); }],
        DEBUG: [/^DEBUG$/, () => {}],
        CAMPAIGN: [/^CAMPAIGN$/, () => {}],
    };

    const IMAGE_WORD = /^([0-7]) ([0-7]{1,2}) ([0-7]{1,3}) ([0-7]{1,9})$/;

    /** A line of an image: a pair of simplex ones, or a word with its address in the digits that reports use. */
    function takeImage(deck, line) {
        if (SIMPLEX.test(line)) addSimplex(deck, line);
        const word = IMAGE_WORD.exec(tokens(line).join(' '));
        if (word) deck.words.set(`${word[1]} ${word[2].padStart(2, '0')} ${word[3].padStart(3, '0')}`, word[4].padStart(9, '0'));
    }

    const TAPE = new RegExp(`^TAPE ${PORT}(( [0-7]{1,9})+)$`);
    const UNPLUG = new RegExp(`^UNPLUG ${PORT} (0|[1-9]\\d{0,6})$`);

    function tookPort(deck, tokens) {
        const words = tokens.join(' ');
        const tape = TAPE.exec(words);
        const unplug = UNPLUG.exec(words);
        if (tape) deck.tapes.push({ port: tape[1].padStart(3, '0'), words: tape[2].trim().split(' ') });
        if (unplug) deck.unplugs.push({ port: unplug[1].padStart(3, '0'), time: whole(unplug[2]) });
        return tape !== null || unplug !== null;
    }

    function tookOrder(deck, tokens) {
        const [order] = tokens;
        const took = tokens.length === 1 && /^[A-U]{21}$/.test(order) && new Set(order).size === order.length;
        if (took) deck.orders.push(order);
        return took;
    }

    function tookScript(deck, tokens) {
        const [word, name] = tokens;
        const took = word === 'SCRIPT' && tokens.length === 2 && /^[A-Z][A-Z0-9]{0,7}$/.test(name);
        if (took) deck.scripts.push({ name, faults: [] });
        return took;
    }

    /** What a section takes besides fault lines; whether it took the line. */
    const IN_SECTION = { PORTS: tookPort, ORDER: tookOrder, CAMPAIGN: tookScript };

    /** Reads a deck line by line. Where it stands is `before` the program, in the `program`, in a section, or in none yet. */
    class Reader {
        constructor() { Object.assign(this, { deck: empty(), where: 'before', comment: '' }); }

        take(line) {
            if (this.where === 'program') this.takeProgram(line);
            else if (line.text.startsWith('*')) this.takeComment(bare(line.text.slice(1)));
            else if (!this.tookFault(line)) this.takeLine(line, tokens(line.text));
        }

        /** The faults that a fault line here belongs to: those of the deck, or of the last script of a campaign. */
        faults() {
            if (this.where === 'FAULTS') return this.deck.faults;
            return this.where === 'CAMPAIGN' ? this.deck.scripts.at(-1)?.faults : undefined;
        }

        tookFault(line) {
            const faults = this.faults();
            const fault = faults ? Faults.of(line) : null;
            if (fault) faults.push(fault);
            return fault !== null;
        }

        /** Of a source only its end is looked for. */
        takeProgram(line) {
            if (bare(line.text) === 'END') this.where = 'after';
            else if (this.deck.program === 'IMAGE') takeImage(this.deck, line.text);
        }

        /** Comments before the program are the deck's own; one in DEBUG is about the command after it. */
        takeComment(words) {
            if (this.where === 'before') this.deck.comments.push(words);
            this.comment = this.comment === '' ? words : `${this.comment} ${words}`;
        }

        takeLine(line, words) {
            if (words.length === 0) return;
            if (this.where === 'before') this.takeFirst(line, words);
            else if (this.where === 'DEBUG') this.deck.commands.push({ command: bare(line.text), comment: this.comment });
            else if (Object.hasOwn(SECTION_FORMS, words[0])) this.takeSection(words[0], line, words);
            else if (!IN_SECTION[this.where]?.(this.deck, words)) this.deck.unread.push(line);
            this.comment = '';
        }

        takeFirst(line, words) {
            const [program] = words;
            if (words.length > 1 || !['IMAGE', 'SOURCE'].includes(program)) this.deck.unread.push(line);
            else Object.assign(this, { where: 'program' }).deck.program = program;
        }

        takeSection(section, line, words) {
            const [form, take] = SECTION_FORMS[section];
            const match = form.exec(words.join(' '));
            if (match) take(this.deck, match);
            else this.deck.unread.push(line);
            this.where = section;
        }
    }

    /** What a deck says besides its program. */
    function read(text) {
        const reader = new Reader();
        reader.deck.lines = numbered(text);
        for (const line of reader.deck.lines) reader.take(line);
        return reader.deck;
    }

    return { empty, read };
})();

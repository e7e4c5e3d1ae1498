'use strict';

/** The machine as one drawing: seven modules with three lamps and a voter each, the bus, the cells of both twins, and the ports. It draws one
 * moment after another, lets move what moves there, and says which lamp or cell was pressed. */
const Board = (() => {
    const { svg } = Element;
    const { keyOf } = Trace;
    const LINES_OF_PORTS = 12;
    const EM_OF_LETTER = 0.5;
    const EM_OF_BOLD = 0.57;
    const NOTHING = {
        step: -1, made: true, end: null, cells: { marks: [new Map(), new Map()], dead: [new Set(), new Set()] }, answering: null,
        votes: new Map(), votesBefore: null, changed: new Set(), lamps: new Map(), wrong: new Set(), differing: new Map(),
        exchange: null, repair: null, stored: 0, log: [], known: new Map(), faults: [], instruction: null,
    };

    const line = (one, other, kind) => svg('line', { x1: one.x, y1: one.y, x2: other.x, y2: other.y, class: kind });
    const text = (x, y, kind, words) => svg('text', { x, y, class: kind }, words);
    /** A text in the middle of a box, or where its style has it begin there, pressed together where it would be too long. */
    function fitted(place, kind, words, em, each) {
        const made = text(place.middle, place.y, kind, words);
        const room = place.width - 0.6 * em;
        if (words.length * each * em <= room) return made;
        made.setAttribute('textLength', String(room));
        made.setAttribute('lengthAdjust', 'spacingAndGlyphs');
        return made;
    }

    const frame = (place, kind, em) => svg('rect', { x: place.x, y: place.y, width: place.width, height: place.height, rx: 0.5 * em, class: kind });

    // ---- shapes that say what became of a copy or a cell

    const polygon = (points, kind) => svg('polygon', { points: points.map(([x, y]) => `${x},${y}`).join(' '), class: kind });

    const LAMPS = {
        well: (r) => svg('circle', { r, class: 'shape' }),
        healed: (r) => svg('circle', { r, class: 'shape' }),
        hurt: (r) => polygon([[0, -1.2 * r], [1.12 * r, 0.8 * r], [-1.12 * r, 0.8 * r]], 'shape'),
        differed: (r) => svg('rect', { x: -0.95 * r, y: -0.95 * r, width: 1.9 * r, height: 1.9 * r, class: 'shape' }),
    };

    const ring = (r) => svg('circle', { r: 1.3 * r, class: 'ring' });
    const BOLT = [[0.25, -1], [-0.5, 0.15], [-0.05, 0.15], [-0.25, 1], [0.5, -0.2], [0.05, -0.2]];
    const bolt = (r) => polygon(BOLT.map(([x, y]) => [x * r, y * r]), 'sign-marked');
    const cross = (r, kind) => svg('path', { d: `M${-r} ${-r}L${r} ${r}M${-r} ${r}L${r} ${-r}`, class: kind });

    const CELL_SIGNS = {
        damaged: (r) => cross(0.55 * r, 'sign-damaged'),
        stuck: (r) => svg('rect', { x: -0.6 * r, y: -0.16 * r, width: 1.2 * r, height: 0.32 * r, class: 'sign-stuck' }),
        mended: (r) => svg('circle', { cx: 0.62 * r, cy: 0.62 * r, r: 0.26 * r, class: 'sign-mended' }),
        marked: (r) => svg('g', { transform: `translate(${0.6 * r} ${-0.6 * r})` }, bolt(0.6 * r)),
    };

    // ---- the parts that stay

    function wires(places) {
        const { bus, modules, memories, ports } = places;
        const ends = [bus.first, bus.last].map((it) => (bus.upright ? { x: bus.x, y: it } : { x: it, y: bus.y }));
        const joined = ({ gate }) => line(gate, bus.upright ? { x: bus.x, y: gate.y } : { x: gate.x, y: bus.y }, 'wire');
        return svg('g', { class: 'wires', 'aria-hidden': 'true' }, ...[...modules.values(), ...memories, ports].map(joined), line(...ends, 'bus'));
    }

    function lampPart(number, copy, place, press) {
        const made = svg('g', { class: 'light', role: 'button', 'data-module': number, 'data-copy': copy, transform: `translate(${place.x} ${place.y})` });
        made.addEventListener('click', press);
        return made;
    }

    /** What a voter is drawn as: three wires come in, and one leaves below. */
    function voterPart({ voter, lamps, inlets, outlet }, em) {
        const { across: w, down: h } = voter;
        const shape = polygon([[-w, -h], [w, -h], [0.55 * w, h], [-0.55 * w, h]], 'voter');
        const tally = svg('text', { class: 'tally', y: 0.32 * em });
        const group = svg('g', { class: 'voting', transform: `translate(${voter.x} ${voter.y})`, 'aria-hidden': 'true' }, shape, tally);
        const rays = lamps.map((it, at) => line(it, inlets[at], 'ray'));
        return { parts: [...rays, line(...outlet, 'ray'), group], rays, tally };
    }

    class Drawing {
        /** `words` are those of a language, `places` the places of all cells, `simplex` the pairs that are simplex. */
        constructor({ words = Words.of('en'), places = [], simplex = new Set() } = {}) {
            Object.assign(this, { words, cellPlaces: places, simplex, moment: NOTHING, chosen: null });
            this.marks = { copies: new Set(), cells: new Set() };
            this.page = 0;
            this.element = svg('svg', { class: 'board', role: 'group', 'aria-label': words('drawing') });
            this.places = null;
            new ResizeObserver(() => this.lay()).observe(this.element);
            this.element.addEventListener('keydown', (event) => this.pressKey(event));
            this.element.addEventListener('pointerdown', () => { this.isHeld = true; });
            for (const name of ['pointerup', 'pointercancel']) window.addEventListener(name, () => this.letGo());
        }

        /** A finger has left: what was to be laid out while it was down is laid out once the press is told. */
        letGo() {
            if (!this.isHeld) return;
            this.isHeld = false;
            setTimeout(() => this.lay());
        }

        // ---- laying out

        /** Puts all parts where there is room for them now, and shows the moment again; not under a finger, since a part that goes away takes its press
         * along. The style says which parts are shown (`--face`), and how large a cell must be (`--least-cell`). */
        lay() {
            if (this.isHeld) return;
            const style = window.getComputedStyle(this.element);
            const face = style.getPropertyValue('--face').trim();
            if (face !== this.face) this.element.style.minHeight = '';
            const { width, height } = this.element.getBoundingClientRect();
            if (width === 0) return;
            const em = Number.parseFloat(style.fontSize);
            const least = Number.parseFloat(style.getPropertyValue('--least-cell')) || 0;
            const key = `${face} ${Math.round(width)} ${Math.round(height)} ${em} ${least}`;
            if (key === this.laid) return;
            const isOther = face !== this.face;
            Object.assign(this, { laid: key, face, room: { width, height, em, least } });
            this.place();
            if (isOther) this.follow();
        }

        /** Places all parts, draws them, and tells which page of the cells is shown. */
        place() {
            const { face, room: { width, height, em, least }, cellPlaces: { length }, page } = this;
            this.places = face ? Pocket.of(face, width, height, em, length, page) : Geometry.of(width, height, em, length, { least, page });
            this.element.style.minHeight = `${this.places.least}px`;
            this.element.dataset.face = face;
            this.build();
            this.draw();
            this.move(false);
            this.press('paged', { ...this.places.cells, count: length });
        }

        /** Turns to a page of the cells, where that is another one. */
        turnTo(page) {
            const { pages } = this.places.cells;
            this.page = (page + pages) % pages;
            this.place();
        }

        build() {
            const { modules, bus } = this.places;
            const parts = [...modules.keys()].map((it) => this.moduleParts(it));
            const memories = Parts.TWINS.map((twin) => this.memoryParts(twin));
            this.layer = svg('g', { class: 'moving', 'aria-hidden': 'true' });
            const name = bus.upright ? [] : [this.busName()];
            // no way of a word lies over the name of a memory
            const twinNames = memories.flatMap((it) => [...it.querySelectorAll(':scope > .twin-name')]);
            this.element.replaceChildren(wires(this.places), ...name, ...parts, ...memories, this.portParts(), this.layer, ...twinNames);
        }

        busName() {
            const { bus, em } = this.places;
            return text(bus.first + 0.3 * em, bus.y - 0.45 * em, 'busname', this.words('bus'));
        }

        moduleParts(number) {
            const place = this.places.modules.get(number);
            const { em } = this.places;
            const voter = voterPart(place, em);
            const press = (copy) => () => this.press('lamp', { module: number, copy });
            const lamps = Parts.COPIES.map((copy) => lampPart(number, copy, place.lamps[copy - 1], press(copy)));
            const value = text(place.value.x, place.value.y, 'value', '');
            const name = fitted(place.title, 'name', this.words(`module.${number}`), em, EM_OF_BOLD);
            const group = svg('g', { class: 'part', 'data-module': number }, svg('title', {}, this.words(`does.${number}`)),
                frame(place, 'card', em), name, ...voter.parts, value, ...lamps);
            this.modules ??= new Map();
            this.modules.set(number, { group, lamps, value, ...voter });
            return Roving.over(group, lamps);
        }

        memoryParts(twin) {
            const place = this.places.memories[twin];
            this.memories ??= [];
            this.memories[twin] = { group: svg('g', {}), cells: [] };
            if (place.cells.length === 0) return this.memories[twin].group;
            const { em, cells: { first } } = this.places;
            const cells = place.cells.map((cell, index) => this.cellPart(twin, this.cellPlaces[first + index], cell));
            const name = text(place.x + 0.7 * em, place.name, 'name twin-name', this.words('twin', { twin: Spelling.twin(twin, this.words) }));
            const group = svg('g', { class: 'twin', 'data-twin': twin }, frame(place, 'card', em), name, ...cells);
            if (place.left > 0) group.append(text(place.middle, place.bottom - 0.4 * em, 'more', this.words('more.cells', { count: place.left })));
            this.memories[twin] = { group, cells };
            return Roving.over(group, cells);
        }

        cellPart(twin, place, cell) {
            const made = svg('g', { class: 'slot', role: 'button', 'data-twin': twin, 'data-place': place, transform: `translate(${cell.x} ${cell.y})` });
            made.addEventListener('click', () => this.press('cell', { twin, place }));
            return made;
        }

        portParts() {
            const { ports, em } = this.places;
            this.portLines = svg('g', { class: 'port-lines' });
            if (!ports.title) return this.portLines;
            return svg('g', { class: 'ports' }, frame(ports, 'card', em), fitted(ports.title, 'name', this.words('ports'), em, EM_OF_BOLD), this.portLines);
        }

        // ---- pressing

        press(name, detail) { this.element.dispatchEvent(new CustomEvent(name, { detail, bubbles: true })); }

        pressKey(event) {
            if (event.key !== 'Enter' && event.key !== ' ') return;
            event.preventDefault();
            event.target.dispatchEvent(new MouseEvent('click', { bubbles: true }));
        }

        // ---- showing

        /** Shows a moment; `moving` lets move what moves in it. What `mark` and `choose` take may come with it, and is drawn at once. */
        show(moment, moving = false, { copies, cells, module } = {}) {
            const isOther = moment.step !== this.moment.step;
            this.moment = moment;
            if (isOther) this.follow();
            if (copies) this.marks = { copies: new Set(copies), cells: new Set(cells) };
            if (module !== undefined) this.chosen = module;
            this.draw();
            this.move(moving);
        }

        /** Turns to the page of the cell that the moment is about. */
        follow() {
            const { exchange, repair, end } = this.moment;
            const address = repair?.address ?? exchange?.address ?? end?.address;
            if (!address || !(this.places?.cells.pages > 1)) return;
            const { shown, page } = this.places.cells;
            const due = Math.floor(this.cellPlaces.indexOf(Cells.placeOf(address)) / shown);
            if (due >= 0 && due !== page) this.turnTo(due);
        }

        /** Marks copies, by keys as 3-1, and cells, by keys as 0 1 02 003 of which the first number is the twin, as hurt by a visitor. */
        mark(copies, cells = []) {
            this.marks = { copies: new Set(copies), cells: new Set(cells) };
            this.draw();
        }

        /** Sets one module apart, or none. */
        choose(module) {
            this.chosen = module;
            this.draw();
        }

        /** Uses other words: of another language, or with octal. */
        speak(words) {
            this.words = words;
            if (!this.places) return;
            this.build();
            this.draw();
            this.move(false);
        }

        draw() {
            if (!this.places) return;
            for (const number of this.places.modules.keys()) this.drawModule(number);
            for (const twin of Parts.TWINS) this.drawMemory(twin);
            this.drawPorts();
        }

        /** Draws the ways of words and votes, and lets them move or not. */
        move(moving) {
            if (!this.places) return;
            this.layer.replaceChildren();
            const look = { indexOf: (place) => this.cellPlaces.indexOf(place), simplex: this.simplex, words: this.words };
            Motion.play(this.layer, Moves.of(this.places, this.moment, look), this.places, moving);
        }

        drawModule(number) {
            const { group, lamps, rays, tally, value } = this.modules.get(number);
            const kinds = Parts.COPIES.map((copy) => this.moment.lamps.get(keyOf(number, copy)) ?? 'well');
            kinds.forEach((kind, at) => {
                this.drawLamp(lamps[at], number, at + 1, kind);
                rays[at].setAttribute('class', `ray ${kind}`);
            });
            const apart = kinds.filter((it) => it === 'differed').length;
            tally.textContent = apart > 0 ? `${Parts.COPIES.length - apart} : ${apart}` : '';
            group.classList.toggle('changed', this.moment.changed.has(number));
            group.classList.toggle('ended', this.moment.end?.module === number);
            group.classList.toggle('chosen', this.chosen === number);
            value.textContent = this.valueOf(number);
        }

        valueOf(number) {
            const latches = this.moment.votes.get(number);
            return latches ? Spelling.module(number, latches, this.words) : '';
        }

        drawLamp(group, number, copy, kind) {
            const { radius, touch: { width, height } } = this.places.modules.get(number).lamps[copy - 1];
            const marked = this.marks.copies.has(keyOf(number, copy));
            const state = [this.words(`lamp.${kind}`), ...(marked ? [this.words('lamp.marked')] : [])].join(', ');
            const saying = this.words('lamp', { module: this.words(`module.${number}`), copy, state });
            group.setAttribute('class', `light ${kind}${marked ? ' marked' : ''}`);
            group.setAttribute('data-kind', kind);
            group.setAttribute('aria-label', saying);
            const hit = svg('rect', { x: -width / 2, y: -height / 2, width, height, class: 'hit' });
            const rings = kind === 'healed' ? [ring(radius)] : [];
            const bolts = marked ? [svg('g', { transform: `translate(${0.85 * radius} ${-0.6 * radius})` }, bolt(0.65 * radius))] : [];
            const digit = svg('text', { y: 0.35 * this.places.em, class: 'copy-number' }, String(copy));
            group.replaceChildren(svg('title', {}, saying), hit, LAMPS[kind](radius), ...rings, ...bolts, digit);
        }

        // ---- cells

        /** What is done with a cell in this moment: it is read or stored, or nothing. A dead twin stores nothing. */
        doneWith(twin, place) {
            const { cells, exchange, answering } = this.moment;
            if (!exchange?.address || Cells.placeOf(exchange.address) !== place) return [];
            if (!Cells.holdersOf(exchange.address, this.simplex).includes(twin)) return [];
            if (exchange.kind === 'STORE') return cells.dead[twin].has(place[0]) ? [] : ['stored'];
            return (answering ?? twin) === twin ? ['read'] : [];
        }

        /** What befell a cell, and what is done with it in this moment. */
        stateOf(twin, place) {
            const { cells, repair } = this.moment;
            const isDead = cells.dead[twin].has(place[0]);
            const mended = repair && !isDead && repair.twin === twin && Cells.placeOf(repair.address) === place;
            return [
                ...(isDead ? ['dead'] : []), ...(cells.marks[twin].get(place) ?? []), ...(mended ? ['mended'] : []),
                ...this.doneWith(twin, place), ...(this.marks.cells.has(`${twin} ${place}`) ? ['marked'] : []),
            ];
        }

        drawMemory(twin) {
            const { group, cells } = this.memories[twin];
            const { memories, cells: { first } } = this.places;
            cells.forEach((cell, index) => this.drawCell(cell, twin, this.cellPlaces[first + index], memories[twin].cells[index].size));
            group.classList.toggle('dead', this.moment.cells.dead[twin].size > 0);
        }

        drawCell(group, twin, place, size) {
            const states = this.stateOf(twin, place);
            const said = (states.length === 0 ? ['well'] : states).map((it) => this.words(`cell.${it}`)).join(', ');
            const saying = this.words('cell', { twin: Spelling.twin(twin, this.words), place: Spelling.cell(place, this.words), state: said });
            const lost = this.moment.end?.address && Cells.placeOf(this.moment.end.address) === place;
            group.setAttribute('class', ['slot', ...states, ...(lost ? ['lost'] : [])].join(' '));
            group.setAttribute('data-states', states.join(' '));
            group.setAttribute('aria-label', saying);
            const side = size * 0.86;
            const labels = this.labelsOf(place, size);
            const hit = svg('rect', { x: -size / 2, y: -size / 2, width: size, height: size, class: 'hit' });
            const box = svg('rect', { x: -side / 2, y: -side / 2, width: side, height: side, rx: side * 0.12, class: 'box' });
            const signs = states.filter((it) => CELL_SIGNS[it]).map((it) => CELL_SIGNS[it](size / 2));
            group.replaceChildren(svg('title', {}, saying), hit, box, ...labels, ...signs);
        }

        /** What stands in a cell where there is room: what was last read or stored there; in octal its location too. */
        labelsOf(place, size) {
            const { em } = this.places;
            const known = this.moment.known.get(place);
            const words = known && Spelling.content(known, this.words);
            const fits = (letters, each) => letters * each * em < 0.84 * size;
            const content = words && fits(words.length, 0.5) ? [svg('text', { y: 0.3 * em, class: 'content' }, words)] : [];
            const y = content.length > 0 ? -size / 2 + 1.15 * em : 0.2 * em;
            const location = this.words.octal && fits(3, 0.42) ? [svg('text', { y, class: 'location' }, place.slice(-3))] : [];
            return [...content, ...location];
        }

        // ---- ports

        /** The last words that went through the ports, as many as there is room for. */
        drawPorts() {
            const { ports } = this.places;
            if (!ports.title) return;
            const shown = this.moment.log.slice(-Math.min(LINES_OF_PORTS, ports.lines));
            const lines = shown.length === 0 ? [this.words('ports.none')] : shown.map((it) => this.exchangeText(it));
            this.portLines.replaceChildren(...lines.map((it, at) => this.portLine(it, at, this.portKind(shown, at))));
        }

        portLine(words, at, kind) {
            const { ports, em } = this.places;
            return fitted({ ...ports.told ?? ports, y: ports.first + 1.5 * at * em }, kind, words, em, EM_OF_LETTER);
        }

        portKind(shown, at) { return `port-line${shown[at]?.step === this.moment.step ? ' now' : ''}${shown.length === 0 ? ' none' : ''}`; }

        exchangeText({ kind, port, word }) {
            const way = this.words(kind === 'IN' ? 'word.in' : 'word.out');
            return this.words.octal ? `${way} ${port}: ${word}` : `${way}: ${Latches.decimal(word)}`;
        }
    }

    return { Drawing };
})();

'use strict';

/** Where everything stands in the drawing of the machine, in pixels. Wide drawings have all seven modules above the bus; narrow ones have four
 * above it, three and the ports below. All sizes go by the size of the letters. */
const Geometry = (() => {
    const LEAST_EMS_OF_WIDE = 54;
    const WIDE = { rows: [[1, 2, 3, 4, 5, 6, 7]], gap: 0.7, card: 10.4, edge: 0.5, least: 22 };
    const NARROW = { rows: [[1, 2, 3, 4], [5, 6, 7, 'ports']], gap: 0.3, card: 8.4, edge: 0.5, least: 30 };
    const TITLE = 1.9;
    const MOST_CELL = 5;
    const LEAST_CELL = 0.7;
    const FINGER = 44;

    const box = (x, y, width, height) => ({ x, y, width, height, middle: x + width / 2, bottom: y + height });

    /** Boxes side by side that fill a width. */
    function columns(count, x, y, width, height, gap) {
        const each = (width - gap * (count - 1)) / count;
        return Array.from({ length: count }, (_, at) => box(x + at * (each + gap), y, each, height));
    }

    const VOTER = { across: 1.5, down: 0.75 };

    /** Where the wires of the lamps come into a voter: from above. */
    const inletsOf = (lamps, voter) => lamps.map((it) => ({ x: voter.x + (it.x - voter.x) * 0.25, y: voter.y - voter.down }));

    /** What stands in the box of a module: three lamps in a row, the voter under them, and what it holds. `down` is whether the bus is below. */
    function moduleIn(place, em, down) {
        const radius = Math.min(1.55 * em, place.width / 7.3, place.height / 2 - 3 * em);
        const lampY = place.y + 2.4 * em + radius + 0.15 * em;
        const pitch = Math.max(2.45 * radius, Math.min(FINGER, place.width / 2.9));
        const touch = { width: pitch, height: Math.max(3.4 * radius, pitch) };
        const lamps = Parts.COPIES.map((copy) => ({ x: place.middle + (copy - 2) * pitch, y: lampY, radius, touch }));
        const value = { x: place.middle, y: place.bottom - 0.9 * em };
        const voter = { x: place.middle, y: (lampY + radius + value.y - 0.9 * em) / 2 + 0.1 * em, across: VOTER.across * em, down: VOTER.down * em };
        const outlet = [{ x: voter.x, y: voter.y + voter.down }, { x: voter.x, y: value.y - em }];
        const gate = { x: place.middle, y: down ? place.bottom : place.y };
        return { ...place, title: { ...place, y: place.y + 1.5 * em }, lamps, voter, inlets: inletsOf(lamps, voter), outlet, value, gate };
    }

    /** The size of cells with which so many fill a box best, and how many stand in a row. */
    function gridIn(count, width, height, em) {
        for (let size = MOST_CELL * em; size > LEAST_CELL * em; size -= 1) {
            const across = Math.floor(width / size);
            if (across > 0 && across * Math.floor(height / size) >= count) return { size, across };
        }
        const size = LEAST_CELL * em;
        return { size, across: Math.max(1, Math.floor(width / size)) };
    }

    /** What a memory has beside its cells, above and below. */
    const heightOfCells = (place, em) => place.height - (TITLE + 1.4) * em;

    /** How many cells of a size the box of a memory has room for. */
    const roomIn = (place, em, size) => Math.max(1, Math.floor((place.width - em) / size)) * Math.max(1, Math.floor(heightOfCells(place, em) / size));

    /** The pages of so many cells: how many a page shows, and of the page that is asked for the first cell and how many it has. */
    function pagesOf(count, room, asked) {
        const shown = Math.max(1, Math.min(count, room));
        const pages = Math.max(1, Math.ceil(count / shown));
        const page = Math.min(asked, pages - 1);
        return { shown, pages, page, first: page * shown, here: Math.min(shown, count - page * shown) };
    }

    /** A memory: its title, and the cells of a page. `left` are those that are on none. */
    function memoryIn(place, em, { shown, here }, left, gate) {
        const height = heightOfCells(place, em);
        const { size, across } = gridIn(shown, place.width - em, height, em);
        const from = place.middle - Math.min(across, shown) * size / 2;
        const high = Math.ceil(shown / across) * size;
        const top = place.y + TITLE * em + (height - high) / 2;
        const cells = Array.from({ length: here }, (_, at) => ({
            x: from + (at % across + 0.5) * size, y: top + (Math.floor(at / across) + 0.5) * size, size,
        }));
        return { ...place, name: place.y + 1.3 * em, cells, left, gate, under: Math.min(top + high + 0.8 * em, place.bottom - 0.9 * em) };
    }

    const portsIn = (place, em, down) => ({
        ...place, title: { ...place, y: place.y + 1.5 * em }, first: place.y + 3.1 * em, lines: Math.max(1, Math.floor((place.height - 2.6 * em) / (1.5 * em))),
        gate: { x: place.middle, y: down ? place.bottom : place.y },
    });

    /** The rows of modules, and the bus after the first. */
    function rowsOf(form, width, card, em) {
        const inner = width - 2 * form.edge * em;
        const bus = card + 1.5 * em;
        const tops = [0.15 * em, bus + 1.3 * em];
        const boxes = form.rows.flatMap((row, at) => columns(row.length, form.edge * em, tops[at], inner, card, form.gap * em)
            .map((place, column) => [row[column], place, at === 0]));
        return { boxes, bus: { y: bus, first: 0.3 * em, last: width - 0.3 * em }, bottom: form.rows.length === 1 ? bus : tops[1] + card };
    }

    /** The memories under the bus, in wide drawings with the ports beside them. */
    function lowerOf(form, width, height, bottom, em) {
        const wide = form === WIDE;
        const [top, inner] = [bottom + (wide ? 1.4 : 1) * em, width - 2 * form.edge * em];
        if (!wide) return columns(2, form.edge * em, top, inner, height - top - 0.2 * em, 0.7 * em);
        const ports = Math.max(13 * em, 0.18 * inner);
        const memories = columns(2, form.edge * em, top, inner - ports - form.gap * em, height - top - 0.2 * em, form.gap * em);
        return [...memories, box(width - form.edge * em - ports, top, ports, height - top - 0.2 * em)];
    }

    /** Where a memory is joined to the bus: from above, or in narrow drawings along the edge. */
    function gateOf(form, place, twin, width, em) {
        if (form === WIDE) return { x: place.middle, y: place.y };
        return { x: twin === 0 ? 0.3 * em : width - 0.3 * em, y: place.y + 1.2 * em };
    }

    /** The cells of both memories in these boxes. Where they may not be smaller than a least size they have pages; else as many as have room. */
    function cellsIn(boxes, em, count, { least, page }) {
        const cells = least > 0 ? pagesOf(count, roomIn(boxes[0], em, least), page) : pagesOf(Math.min(count, roomIn(boxes[0], em, LEAST_CELL * em)), count, 0);
        return { cells, left: least > 0 ? 0 : count - cells.shown };
    }

    /** All places of a drawing of this width and height, for letters of this size and so many cells. It may come out higher. */
    function of(width, height, em, count, paging = { least: 0, page: 0 }) {
        const form = width >= LEAST_EMS_OF_WIDE * em ? WIDE : NARROW;
        const high = Math.max(height, form.least * em);
        const card = form === WIDE ? Math.max(form.card * em, 0.4 * high) : Math.max(form.card * em, 0.26 * high);
        const { boxes, bus, bottom } = rowsOf(form, width, card, em);
        const modules = new Map(boxes.filter(([name]) => name !== 'ports').map(([name, place, down]) => [name, moduleIn(place, em, down)]));
        const lower = lowerOf(form, width, high, bottom, em);
        const ports = form === WIDE ? portsIn(lower[2], em, false) : portsIn(boxes.find(([name]) => name === 'ports')[1], em, false);
        const { cells, left } = cellsIn(lower, em, count, paging);
        const memories = Parts.TWINS.map((twin) => memoryIn(lower[twin], em, cells, left, gateOf(form, lower[twin], twin, width, em)));
        return { width, height: high, least: form.least * em, em, wide: form === WIDE, modules, bus, memories, ports, cells };
    }

    // ---- ways of words

    const onBus = ({ bus }, gate) => (bus.upright ? { x: bus.x, y: gate.y } : { x: gate.x, y: bus.y });

    /** The points from a cell to its memory's way out, straight up, or first to the edge. */
    function fromCell(places, twin, index) {
        const memory = places.memories[twin];
        const cell = memory.cells[index - places.cells.first];
        if (!cell) return [memory.gate];
        const edge = { x: cell.x, y: cell.y - 0.43 * cell.size };
        return places.wide ? [edge, { x: cell.x, y: memory.y }] : [edge, { x: cell.x, y: memory.gate.y }, memory.gate];
    }

    const ENDS = {
        cell: (places, it) => fromCell(places, it.twin, it.index),
        module: (places, it) => [(places.modules.get(it.module) ?? places.beyond).gate],
        ports: (places) => [places.ports.gate],
    };

    /** The way of a word over the bus, from one end to another: a cell, a module or the ports. */
    function way(places, from, to) {
        const out = ENDS[from.at](places, from);
        const back = ENDS[to.at](places, to);
        return [...out, onBus(places, out.at(-1)), onBus(places, back.at(-1)), ...back.reverse()];
    }

    /** The way of a word from a cell to that of the other twin, below the other cells. */
    function across(places, index, twin) {
        const [from, to] = [1 - twin, twin].map((it) => places.memories[it].cells[index - places.cells.first]);
        if (!from || !to) return [];
        const y = places.memories[twin].under;
        const edge = (cell) => ({ x: cell.x, y: cell.y + 0.43 * cell.size });
        return [edge(from), { x: from.x, y }, { x: to.x, y }, edge(to)];
    }

    return { FINGER, of, way, across, box, columns, roomIn, pagesOf, memoryIn };
})();

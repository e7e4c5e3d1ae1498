'use strict';

/** Where everything stands in the drawing of the machine on a small screen, in pixels. It has two faces: the copies, a row for each module and
 * one for the ports; and the cells of both memories, by pages. What is pressed is as large as a finger. */
const Pocket = (() => {
    const { FINGER, box, columns, roomIn, pagesOf, memoryIn } = Geometry;
    const VOTER = { across: 1.4, down: 0.62 };
    const CELL = 45;
    const LEAST_EMS_OF_TWO = 40;
    const MOST_ROW = 5.5;
    const BUS = 1.1;
    const EDGE = 0.1;

    // ---- the copies

    /** So many rows in a column, of the height that there is, up to a most. */
    function rowsIn(count, place, em) {
        const gap = EDGE * em;
        const each = Math.max(FINGER, Math.min(MOST_ROW * em, (place.height - gap * (count - 1)) / count));
        return Array.from({ length: count }, (_, at) => box(place.x, place.y + at * (each + gap), place.width, each));
    }

    /** One of three parts of a row: the name, the lamps, the voter over what the module holds. */
    function partsOf(place, em) {
        const pitch = Math.max(FINGER, Math.min(3.4 * em, 0.13 * place.width));
        const named = Math.max(0.26 * place.width, place.width - 3 * pitch - 9 * em);
        return { pitch, named, voting: place.x + named + 3 * pitch + (place.width - named - 3 * pitch) / 2 };
    }

    /** What stands in the row of a module. */
    function moduleIn(place, em, gateX) {
        const { pitch, named, voting } = partsOf(place, em);
        const middle = place.y + place.height / 2;
        const radius = Math.min(0.41 * pitch, 0.41 * place.height);
        const touch = { width: pitch, height: place.height };
        const lamps = Parts.COPIES.map((copy) => ({ x: place.x + named + (copy - 0.5) * pitch, y: middle, radius, touch }));
        const apart = Math.min(0.5 * place.height - 0.85 * em, 1.2 * em);
        const voter = { x: voting, y: middle - apart, across: VOTER.across * em, down: VOTER.down * em };
        const value = { x: voting, y: middle + apart + 0.5 * em };
        const outlet = [voter, { x: voter.x, y: value.y - 0.8 * em }];
        const inlets = lamps.map((_, at) => ({ x: voter.x - 0.8 * voter.across, y: voter.y + 0.25 * (at - 1) * em }));
        const title = { ...box(place.x, middle + 0.3 * em, named, 0), middle: place.x + 0.5 * em };
        return { ...place, title, lamps, voter, inlets, outlet, value, gate: { x: gateX, y: middle } };
    }

    /** The row of the ports: their name, and the last word. */
    function portsIn(place, em, gateX) {
        const { named } = partsOf(place, em);
        const y = place.y + place.height / 2 + 0.3 * em;
        const title = { ...box(place.x, y, named, 0), middle: place.x + 0.5 * em };
        return { ...place, title, told: box(place.x + named, y, place.width - named, 0), first: y, lines: 1, gate: { x: gateX, y: place.y + place.height / 2 } };
    }

    /** The columns of rows beside the upright bus, and where each is joined to it: one with the bus on the right, or two with it between them. */
    function columnsOf(width, height, em) {
        const [gap, top] = [BUS * em, EDGE * em];
        if (width < LEAST_EMS_OF_TWO * em) return { bus: width - gap / 2, places: [box(0, top, width - gap, height - 2 * top)], gates: [width - gap] };
        const places = columns(2, 0, top, width, height - 2 * top, gap);
        return { bus: width / 2, places, gates: [places[0].width, places[1].x] };
    }

    function copiesOf(width, height, em) {
        const { bus, places, gates } = columnsOf(width, height, em);
        const each = (Parts.MODULES.length + 1) / places.length;
        const rows = places.flatMap((place, column) => rowsIn(each, place, em).map((row) => [row, gates[column]]));
        const modules = new Map(Parts.MODULES.map(({ number }, at) => [number, moduleIn(rows[at][0], em, rows[at][1])]));
        const bottom = rows.at(-1)[0].bottom;
        const memory = { cells: [], gate: { x: bus, y: bottom } };
        return {
            modules, ports: portsIn(rows.at(-1)[0], em, rows.at(-1)[1]), memories: [memory, memory], cells: pagesOf(0, 0, 0),
            bus: { upright: true, x: bus, first: EDGE * em, last: bottom }, least: each * (FINGER + EDGE * em),
        };
    }

    // ---- the memories

    /** The boxes of both memories, one under the other or side by side, and the bus beside them. */
    function boxesOf(width, height, em) {
        const gap = BUS * em;
        if (width > height) return { places: columns(2, 0, 0, width, height, gap), bus: width / 2 };
        const each = (height - gap) / 2;
        return { places: [0, each + gap].map((y) => box(0, y, width - gap, each)), bus: width - gap / 2 };
    }

    function cellsOf(width, height, em, count, asked) {
        const { places, bus } = boxesOf(width, height, em);
        const cells = pagesOf(count, roomIn(places[0], em, CELL), asked);
        const gates = places.map((it) => ({ x: it.x < bus ? it.x + it.width : it.x, y: it.y + 1.2 * em }));
        const memories = places.map((it, twin) => memoryIn(it, em, cells, 0, gates[twin]));
        const ends = { first: EDGE * em, last: height - EDGE * em };
        const end = (y) => ({ gate: { x: bus, y } });
        return {
            modules: new Map(), memories, cells, ports: end(ends.last), beyond: end(ends.first),
            bus: { upright: true, x: bus, ...ends }, least: 2 * CELL + 7 * em,
        };
    }

    /** All places of one face, `copies` or `memory`, for letters of this size and so many cells, of which a page is asked for. */
    function of(face, width, height, em, count, page) {
        const found = face === 'memory' ? cellsOf(width, height, em, count, page) : copiesOf(width, height, em);
        return { width, height, em, wide: false, ...found };
    }

    return { of };
})();

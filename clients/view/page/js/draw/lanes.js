'use strict';

/** Draws lanes on a canvas. What lies within what is drawn already isn't drawn again, so that a script of 65,536 lines takes
 * hardly longer than one of a few hundred. Colours are the style's. */
const Lanes = (() => {
    const COLOURS = ['fault', 'damage', 'repair', 'in', 'out', 'end', 'lane', 'text'];
    const COLOUR_OF = { stick: 'damage', dead: 'damage', unplug: 'end' };
    const LEAST_WIDTH = 3;

    /** The shape of each kind in a lane of this height. */
    const SHAPES = {
        fault: (pen, box) => pen.fillRect(box.x, box.y + box.height * 0.22, box.width, box.height * 0.56),
        damage: (pen, box) => strokes(pen, [[-1, -1, 1, 1], [-1, 1, 1, -1]], box),
        stick: (pen, box) => pen.fillRect(box.x, box.y + box.height * 0.4, box.width, box.height * 0.2),
        dead: (pen, box) => hatched(pen, box),
        repair: (pen, box) => disc(pen, box),
        in: (pen, box) => wedge(pen, box, -1),
        out: (pen, box) => wedge(pen, box, 1),
        unplug: (pen, box) => strokes(pen, [[0, -1, 0, 1], [-1, 0, 1, 0]], box),
        end: (pen, box) => pen.fillRect(box.x, 0, LEAST_WIDTH, box.y + box.height),
    };
    const POINTS = ['damage', 'repair', 'unplug', 'in', 'out'];

    const centre = (box) => ({ x: box.x + Math.min(box.width, box.height) / 2, y: box.y + box.height / 2, half: box.height * 0.3 });

    function strokes(pen, lines, box) {
        const { x, y, half } = centre(box);
        pen.lineWidth = Math.max(2, box.height / 8);
        pen.beginPath();
        for (const [fromX, fromY, toX, toY] of lines) {
            pen.moveTo(x + fromX * half, y + fromY * half);
            pen.lineTo(x + toX * half, y + toY * half);
        }
        pen.stroke();
    }

    function disc(pen, box) {
        const { x, y, half } = centre(box);
        pen.beginPath();
        pen.arc(x, y, half, 0, 2 * Math.PI);
        pen.fill();
    }

    /** A wedge that points down into the machine for a word read, and up out of it for a word written. */
    function wedge(pen, box, way) {
        const { x, y, half } = centre(box);
        pen.beginPath();
        pen.moveTo(x - half, y + half * way);
        pen.lineTo(x + half, y + half * way);
        pen.lineTo(x, y - half * way);
        pen.fill();
    }

    /** The whole height of the lane, in stripes. */
    function hatched(pen, box) {
        pen.strokeRect(box.x + 0.5, box.y + 1.5, Math.max(1, box.width - 1), box.height - 3);
        for (let x = box.x; x < box.x + box.width; x += 6) pen.fillRect(x, box.y + 1.5, 2, box.height - 3);
    }

    /** The part of a run that is in view: steps `from` up to before `to`, over so many pixels. */
    class Scale {
        constructor(from, to, width) { Object.assign(this, { from, to, width }); }

        xOf(step) { return (step - this.from) / (this.to - this.from) * this.width; }

        stepAt(x) { return Math.floor(this.from + x / this.width * (this.to - this.from)); }
    }

    const coloursOf = (canvas) => {
        const style = getComputedStyle(canvas);
        return Object.fromEntries(COLOURS.map((it) => [it, style.getPropertyValue(`--${it}`).trim()]));
    };

    /** One lane: marks of a kind that would end where that kind has been drawn already are passed over. */
    function drawLane(pen, lane, scale, y, height, colours) {
        const drawn = {};
        const end = lane.before(scale.to);
        for (let at = 0; at < end; at += 1) {
            const mark = lane.marks[at];
            if (mark.last < scale.from) continue;
            const x = POINTS.includes(mark.kind) ? scale.xOf(mark.first) : scale.xOf(Math.max(mark.first, scale.from));
            const width = Math.max(LEAST_WIDTH, scale.xOf(Math.min(mark.last + 1, scale.to)) - x);
            if (x + width <= (drawn[mark.kind] ?? -1)) continue;
            drawn[mark.kind] = x + width + 1;
            pen.fillStyle = colours[COLOUR_OF[mark.kind] ?? mark.kind];
            pen.strokeStyle = pen.fillStyle;
            pen.lineWidth = 1;
            SHAPES[mark.kind](pen, { x, y, width, height });
        }
    }

    /** A band behind every second module, so that an eye can follow a lane. */
    function drawBands(pen, lanes, scale, height, colours) {
        pen.fillStyle = colours.lane;
        lanes.forEach((_, index) => {
            if (Math.floor(index / Parts.COPIES.length) % 2 === 0) pen.fillRect(0, index * height, scale.width, height);
        });
    }

    function drawTicks(pen, scale, ticks, height, colours) {
        pen.fillStyle = colours.text;
        pen.globalAlpha = 0.12;
        for (const it of ticks) pen.fillRect(Math.round(scale.xOf(it)), 0, 1, height);
        pen.globalAlpha = 1;
    }

    /** Draws all lanes, with a hairline at each step of `ticks`. */
    function draw(canvas, lanes, scale, ticks) {
        const ratio = window.devicePixelRatio || 1;
        const height = canvas.clientHeight / lanes.length;
        const colours = coloursOf(canvas);
        const pen = canvas.getContext('2d');
        canvas.width = Math.round(canvas.clientWidth * ratio);
        canvas.height = Math.round(canvas.clientHeight * ratio);
        pen.scale(ratio, ratio);
        drawBands(pen, lanes, scale, height, colours);
        drawTicks(pen, scale, ticks, canvas.clientHeight, colours);
        lanes.forEach((lane, index) => drawLane(pen, lane, scale, index * height, height, colours));
    }

    return { Scale, draw };
})();

'use strict';

/** What moves in a step: words on their ways, votes, a copy that is pulled back, a cell that is rewritten. For whoever asked for less motion
 * it stands still. */
const Motion = (() => {
    const { svg } = Element;
    const TIME_OF_WORD = 1500;
    const TIME_OF_VOTE = 650;
    const REST = 0.35;

    const still = () => window.matchMedia('(prefers-reduced-motion: reduce)').matches;

    const at = (point) => `translate(${point.x}px, ${point.y}px)`;
    const lineOf = (points) => points.map((it, index) => `${index === 0 ? 'M' : 'L'}${it.x.toFixed(1)} ${it.y.toFixed(1)}`).join(' ');

    /** How far along its way each point stands, from 0 to 1. */
    function offsets(points) {
        const lengths = points.map((it, index) => (index === 0 ? 0 : Math.hypot(it.x - points[index - 1].x, it.y - points[index - 1].y)));
        const whole = lengths.reduce((sum, it) => sum + it, 0) || 1;
        let sum = 0;
        return lengths.map((it) => { sum += it; return sum / whole; });
    }

    /** The longest stretch of a way along the bus, by the index of its first point: where a word rests and can be read. */
    function restAt(points, { upright = false }) {
        const [along, aside] = upright ? ['y', 'x'] : ['x', 'y'];
        const lengths = points.slice(1).map((it, index) => (it[aside] === points[index][aside] ? Math.abs(it[along] - points[index][along]) : -1));
        return lengths.indexOf(Math.max(...lengths));
    }

    /** A way with the place at which a word rests put in, once to come there and once to leave. */
    function withRest(points, bus) {
        const at = restAt(points, bus);
        const rest = { x: (points[at].x + points[at + 1].x) / 2, y: (points[at].y + points[at + 1].y) / 2 };
        return { points: [...points.slice(0, at + 1), rest, rest, ...points.slice(at + 1)], index: at + 1, rest };
    }

    /** The frames of a word, which rests on its way. */
    function framesOfWord(way, bus) {
        const { points, index } = withRest(way, bus);
        const all = offsets(points);
        return points.map((it, number) => ({ transform: at(it), offset: Math.min(1, all[number] * (1 - REST) + (number > index ? REST : 0)) }));
    }

    /** The frames of a vote, which goes straight on. */
    const framesOfVote = (points) => points.map((it) => ({ transform: at(it) }));

    const widthOf = (text, em) => (text.length * 0.62 + 1) * em;

    /** A word in a frame of its own, around the point 0 0. */
    function chip(text, kind, em) {
        const width = widthOf(text, em);
        const box = svg('rect', { x: -width / 2, y: -0.85 * em, width, height: 1.7 * em, rx: 0.5 * em });
        return svg('g', { class: `chip ${kind}` }, box, svg('text', { y: 0.36 * em }, text));
    }

    /** Where a word rests, with room for its text on both sides. */
    function restOf(points, text, { em, width, bus }) {
        const { rest } = withRest(points, bus);
        const half = widthOf(text, em) / 2;
        return { x: Math.max(half, Math.min(width - half, rest.x)), y: rest.y };
    }

    /** Draws the way of a word and lets the word go along it; at last it is read where it rests. */
    function word(layer, { points, text, kind, delay = 0, rests = true }, places, moving) {
        const way = svg('path', { class: `way ${kind}`, d: lineOf(points) });
        const rest = chip(text, kind, places.em);
        rest.style.transform = at(restOf(points, text, places));
        layer.append(way, ...(rests ? [rest] : []));
        if (!moving) return;
        const timing = { duration: TIME_OF_WORD, delay, fill: 'both', easing: 'linear' };
        const going = chip(text, kind, places.em);
        layer.append(going);
        going.animate(framesOfWord(points, places.bus), timing);
        going.animate([{ opacity: delay > 0 ? 0 : 1 }, { opacity: 1, offset: 0.05 }, { opacity: 1, offset: 0.93 }, { opacity: 0 }], timing);
        rest.animate([{ opacity: 0 }, { opacity: 0, offset: 0.93 }, { opacity: 1 }], timing);
        way.animate([{ opacity: delay > 0 ? 0 : 0.25 }, { opacity: 1 }], timing);
    }

    /** A vote on its way from a copy to the voter, or from the voter back to a copy. */
    function vote(layer, { points, kind, delay = 0 }, em, moving) {
        if (!moving) return;
        const dot = svg('circle', { class: `ballot ${kind}`, r: 0.32 * em });
        const timing = { duration: TIME_OF_VOTE, delay, fill: 'both', easing: 'ease-in-out' };
        layer.append(dot);
        dot.animate(framesOfVote(points), timing);
        dot.animate([{ opacity: 0 }, { opacity: 1, offset: 0.15 }, { opacity: 1, offset: 0.8 }, { opacity: 0 }], timing);
    }

    /** Plays the words and votes of a moment on a layer that is empty; without motion only where the words went is drawn. */
    function play(layer, { words, votes }, places, moving) {
        const moves = moving && !still();
        for (const it of words) word(layer, it, places, moves);
        for (const it of votes) vote(layer, it, places.em, moves);
    }

    return { play, TIME_OF_WORD, TIME_OF_VOTE };
})();

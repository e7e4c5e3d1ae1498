'use strict';

/** The sky: the rocket turned by the word that was sent last, the way that the words make, and beside it the way of a healthy flight. How far it
 * is and how high is only drawn: each word is one piece of the same length. */
class Sky {
    static DEGREE = 100;

    static UPRIGHT = 9000;

    static MARGIN = 9;

    /** A sky of fewer pixels has a larger rocket. */
    static LOW = 200;

    constructor(place) {
        const { svg } = Element;
        this.place = place;
        this.planned = svg('polyline', { class: 'planned' });
        this.way = svg('polyline', { class: 'way' });
        this.rocket = svg('g', { class: 'ship' }, Sky.ship());
        this.ground = svg('line', { class: 'ground', x1: -200, x2: 200, y1: 0, y2: 0 });
        this.drawing = svg('svg', { 'aria-hidden': 'true' }, this.ground, this.planned, this.way, this.rocket);
        this.label = Element.html('p', { class: 'angle' });
        place.replaceChildren(this.drawing, this.label);
    }

    /** The rocket, upright, with its middle at 0: the ring with the computer is set apart. */
    static ship() {
        const { svg } = Element;
        const part = (d, kind) => svg('path', { d, class: kind });
        return svg('g', {}, part('M-1.1 5V-3.4H1.1V5z', 'hull'), part('M-1.1 5l-1 1.6h4.2l-1-1.6z', 'fins'), part('M-0.8 -3.4L-0.3 -5.6h0.6L0.8 -3.4z', 'tip'),
            part('M-1.1 -3.4h2.2v1h-2.2z', 'ring'), svg('path', { d: 'M-0.8 6.8L0 10l0.8-3.2z', class: 'flame' }));
    }

    /** The points of a way: one piece for each word, at its angle above the ground. */
    static points(sent) {
        const found = [{ x: 0, y: 0 }];
        for (const { number } of sent) {
            const angle = number / Sky.DEGREE * Math.PI / 180;
            const { x, y } = found.at(-1);
            found.push({ x: x + Math.cos(angle), y: y - Math.sin(angle) });
        }
        return found;
    }

    static spelled(points) { return points.map(({ x, y }) => `${x.toFixed(2)},${y.toFixed(2)}`).join(' '); }

    /** The part of the sky that is shown: all of the healthy way, and where the rocket is. */
    fit(points) {
        const all = [...this.plannedPoints, ...points];
        const [left, right] = [Math.min(...all.map((it) => it.x)), Math.max(...all.map((it) => it.x))];
        const [top, bottom] = [Math.min(...all.map((it) => it.y)), Math.max(...all.map((it) => it.y))];
        const m = Sky.MARGIN;
        this.drawing.setAttribute('viewBox', [left - m, top - m, right - left + 2 * m, bottom - top + 2 * m].map((it) => it.toFixed(1)).join(' '));
    }

    /** The way of a healthy flight, dashed. */
    plan(sent) {
        this.plannedPoints = Sky.points(sent);
        this.planned.setAttribute('points', Sky.spelled(this.plannedPoints));
    }

    /** Shows the words that were sent so far, of which `wrong` may be the index of the first wrong one; `silent` is whether none comes any more. */
    show(sent, { wrong, silent, words, second }) {
        const points = Sky.points(sent);
        this.fit(points);
        const number = sent.at(-1)?.number ?? Sky.UPRIGHT;
        const turned = (Sky.UPRIGHT - number) / Sky.DEGREE;
        const { x, y } = points.at(-1);
        this.way.setAttribute('points', Sky.spelled(points));
        const size = this.place.clientHeight < Sky.LOW ? 2 : 1;
        this.rocket.style.transform = `translate(${x.toFixed(2)}px, ${y.toFixed(2)}px) rotate(${turned.toFixed(1)}deg) scale(${size})`;
        const isWrong = silent || (wrong >= 0 && sent.length > wrong);
        this.place.classList.toggle('wrong', isWrong);
        this.place.classList.toggle('silent', silent);
        const told = silent ? words('flight.no-word') : words('flight.angle', { degrees: Verdict.degrees(number, words) });
        this.label.replaceChildren(Element.html('strong', {}, told), ` ${words('flight.second', { second })}`);
        this.place.setAttribute('aria-label', this.label.textContent);
    }
}

'use strict';

/** Lets votes and errors travel over the page, from the middle of one element to another. Where less motion is wanted, what would travel is only
 * marked for a moment. */
const FlightMotion = (() => {
    const { html } = Element;
    const MARKED_FOR = 700;

    const isStill = () => window.matchMedia('(prefers-reduced-motion: reduce)').matches;

    const pause = (milliseconds) => new Promise((done) => { window.setTimeout(done, milliseconds); });

    function middleOf(element) {
        const { left, top, width, height } = element.getBoundingClientRect();
        return { x: left + width / 2, y: top + height / 2 };
    }

    /** Marks an element for a moment. */
    async function mark(element, kind) {
        element.classList.add(kind);
        await pause(MARKED_FOR);
        element.classList.remove(kind);
    }

    /** A dot goes over these points. */
    async function travel(points, kind, says, milliseconds) {
        const dot = html('span', { class: `dot ${kind}`, 'aria-hidden': 'true' }, says);
        document.body.append(dot);
        const frames = points.map(({ x, y }) => ({ transform: `translate(${x}px, ${y}px) translate(-50%, -50%)` }));
        await dot.animate(frames, { duration: milliseconds, easing: 'ease-in-out', fill: 'forwards' }).finished;
        dot.remove();
    }

    /** The votes of a module go to its voter. */
    async function votes({ card, copies, voter }, milliseconds) {
        if (isStill()) {
            await mark(card, 'voting');
            return;
        }
        const to = middleOf(voter);
        await Promise.all(copies.map((it) => travel([middleOf(it), to], it.dataset.kind, it.querySelector('.says').textContent, milliseconds)));
    }

    /** The error of a module runs over the bus to the port, and from there to the rocket. */
    async function error({ voter }, bus, port, sky, milliseconds) {
        if (isStill()) {
            await mark(port, 'erring');
            return;
        }
        const [from, out, rocket] = [voter, port, sky].map(middleOf);
        const { y } = middleOf(bus);
        await travel([from, { x: from.x, y }, { x: out.x, y }, out, rocket], 'error', '✗', milliseconds);
    }

    return { isStill, pause, middleOf, votes, error };
})();

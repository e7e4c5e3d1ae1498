'use strict';

/** Lets arrow keys go over many elements, so that Tab need not pass each: it reaches the one that was chosen last. */
const Roving = (() => {
    const TO = {
        ArrowRight: (at) => at + 1,
        ArrowDown: (at) => at + 1,
        ArrowLeft: (at) => at - 1,
        ArrowUp: (at) => at - 1,
        Home: () => 0,
        End: (at, last) => last,
    };

    /** Follows the keys in a group; the elements of the group that are gone over stand in their order. */
    function over(group, elements) {
        elements.forEach((it, at) => { it.tabIndex = at === 0 ? 0 : -1; });
        group.addEventListener('focusin', (event) => {
            if (elements.includes(event.target)) elements.forEach((it) => { it.tabIndex = it === event.target ? 0 : -1; });
        });
        group.addEventListener('keydown', (event) => {
            if (!Object.hasOwn(TO, event.key) || !elements.includes(event.target)) return;
            event.preventDefault();
            elements[TO[event.key](elements.indexOf(event.target), elements.length - 1)]?.focus();
        });
        return group;
    }

    return { over };
})();

'use strict';

/** The rocket, drawn by this project: where the computer sat. */
const Rocket = (() => {
    const { svg } = Element;

    const shape = (d, kind) => svg('path', { d, class: kind });

    /** Three stages, the ring of the computer, and the spacecraft with its tower. */
    const parts = () => [
        shape('M40 250h40v110H40z', 'stage-one'), shape('M34 345l-10 25h14zM86 345l10 25H82z', 'fin'),
        shape('M44 360h8l3 10H41zM56 360h8l3 10H53zM68 360h8l3 10H65z', 'engine'),
        shape('M40 160h40v86H40z', 'stage-two'), shape('M46 110h28l6 46H40z', 'stage-three'),
        shape('M46 96h28v10H46z', 'ring'),
        shape('M46 92h28l-6-22H52z', 'adapter'), shape('M52 66h16v-14H52z', 'service'),
        shape('M52 48h16l-6-12h-4z', 'capsule'), shape('M58 34h4V8h-4z', 'tower'),
    ];

    /** The drawing, with words that stand beside the ring. */
    function of(words) {
        return svg('svg', { viewBox: '0 0 120 380', class: 'rocket', role: 'img', 'aria-label': words('kiosk.rocket') },
            ...parts(), svg('circle', { cx: 60, cy: 101, r: 24, class: 'halo' }));
    }

    return { of };
})();

"""What is wrong with the measures of a visitors' screen: what is cut off, lies outside of the window, is too small, lies over something else, or
scrolls."""
import json

LEAST_TARGET = 44
LETTERS_IN_HEIGHT = 60

FEW_SIZES = [(390, 844), (1366, 768)]
SIZES = [*FEW_SIZES, (844, 390), (1024, 768), (1080, 1920), (1920, 1080), (3840, 2160)]
FINE = {"outside": [], "cut": [], "small": [], "low": [], "over": [], "scrolls": False}

_MEASURES = """(({ texts, apart, targets, letters, blocks }) => {
    const shown = (it) => it.checkVisibility({ visibilityProperty: true }) && it.getBoundingClientRect().width > 1;
    const root = document.querySelector('dialog[open]') ?? document.body;
    const all = (query) => [...root.querySelectorAll(query)].filter(shown);
    const named = (it) => `${it.id || it.getAttribute('class') || it.tagName}: ${it.textContent.trim().slice(0, 30)}`;
    const box = (it) => it.getBoundingClientRect();
    const isDrawn = (it) => it.namespaceURI.endsWith('svg');
    const ranged = (it) => { const range = document.createRange(); range.selectNodeContents(it); return range.getBoundingClientRect(); };
    const words = (it) => (isDrawn(it) ? box(it) : ranged(it));
    const leaves = all(texts).filter((it) => it.textContent.trim());
    const outside = leaves.filter((it) => { const { left, top, right, bottom } = words(it);
        return left < -1 || top < -1 || right > innerWidth + 1 || bottom > innerHeight + 1; });
    const isCut = (own, text) => text.width > own.width + 2 || text.height > own.height + 4;
    const isBeyond = (one, other) => one.left < other.left - 2 || one.right > other.right + 2
        || one.top < other.top - 4 || one.bottom > other.bottom + 4;
    const hides = (it) => ['hidden', 'clip'].includes(getComputedStyle(it).overflowY) && !isDrawn(it);
    const around = (it) => (it === root ? [] : [it, ...around(it.parentElement)]);
    const isHidden = (it) => around(it).some((one) => hides(one) && isBeyond(words(it), box(one)));
    const cut = leaves.filter((it) => isCut(box(it), words(it)) || isHidden(it));
    const small = all(targets).filter((it) => Math.min(box(it).width, box(it).height) < LEAST - 0.5);
    const low = leaves.filter((it) => letters && parseFloat(getComputedStyle(it).fontSize) < innerHeight / letters - 0.05);
    const isOver = (a, b) => Math.min(a.right, b.right) - Math.max(a.left, b.left) > 2 && Math.min(a.bottom, b.bottom) - Math.max(a.top, b.top) > 2;
    const overlaid = (those, measured) => those.flatMap((one, at) => those.slice(at + 1)
        .filter((other) => !one.contains(other) && !other.contains(one) && isOver(measured(one), measured(other)))
        .map((other) => `${named(one)} and ${named(other)}`));
    const told = all(apart).filter((it) => it.textContent.trim());
    const over = [...overlaid(told, words), ...overlaid(all(targets), box), ...overlaid(all(blocks), box)];
    const scrolls = [document.documentElement, root].some((it) => it.scrollWidth > it.clientWidth + 1 || it.scrollHeight > it.clientHeight + 1);
    return { outside: outside.map(named), cut: cut.map(named), small: small.map(named), low: low.map(named), over, scrolls };
})""".replace("LEAST", str(LEAST_TARGET))


def measures(texts: str, apart: str, targets: str, letters: int = LETTERS_IN_HEIGHT, blocks: str = "dialog") -> str:
    """A script that tells what is wrong: of these texts, of those of them that may not lie over each other, of what is pressed, and of blocks that
    may not lie over each other. A letter is at least such a part of the screen's height; with 0 letters may have any size."""
    asked = {"texts": texts, "apart": apart, "targets": targets, "letters": letters, "blocks": blocks}
    return f"{_MEASURES}({json.dumps(asked)})"


_CONTRAST = """((pairs) => {
    const part = (it) => (it <= 0.04045 ? it / 12.92 : ((it + 0.055) / 1.055) ** 2.4);
    const luminance = (name) => {
        const colour = getComputedStyle(document.documentElement).getPropertyValue(name).trim();
        const [r, g, b] = colour.match(/[0-9a-f]{2}/gi).map((it) => part(Number.parseInt(it, 16) / 255));
        return 0.2126 * r + 0.7152 * g + 0.0722 * b;
    };
    return pairs.filter(([one, other, least]) => {
        const [light, dark] = [luminance(one), luminance(other)].sort((a, b) => b - a);
        return (light + 0.05) / (dark + 0.05) < least;
    });
})"""


def faint(pairs: list[tuple[str, str, float]]) -> str:
    """A script that tells which of these pairs of the style's colours have less contrast than the least one that each names."""
    return f"{_CONTRAST}({json.dumps(pairs)})"

"""The pictures that people want first. They want matplotlib, which is asked for here alone; each gives its Figure, which a notebook shows
where it is a cell's last line, and whose `savefig` writes a file. `ax=` draws on axes that are there. Each raises ImportError where
matplotlib isn't there, and ValueError where a column isn't."""
import importlib
import io
from collections import Counter
from collections.abc import Callable, Mapping, Sequence
from typing import TYPE_CHECKING, Any

from lvdc.ends import Admissible, Logic
from lvdc.populations import Population
from lvdc.rows import CampaignRow, Row, StudyRow
from lvdc.studies import Findings
from lvdc.tables import column, is_admissible, is_different, is_inadmissible
from lvdc.traces import Trace
from lvdc.values import COPIES, MODULES, NAMES

if TYPE_CHECKING:
    from matplotlib.axes import Axes
    from matplotlib.figure import Figure

AnyFindings = Findings[StudyRow] | Findings[CampaignRow]
MEMORY = "memory"
SIZE = (7.0, 4.0)  # inches
WHAT: dict[Any, str] = {is_inadmissible: "end inadmissible", is_different: "come to something else", is_admissible: "are withstood"}
MOST_TICKS = 24


def share(findings: AnyFindings | Mapping[str, AnyFindings], by: str = "distance", of: Callable[[Row], bool] = is_inadmissible, *,
          what: str | None = None, ax: "Axes | None" = None) -> "Figure":
    """The share of runs of which something holds, against a column: a line for each of the findings, by their labels; of a sample with
    Wilson's interval at 95 % about it. `what` says what holds, where `of` is a function of one's own. The axis says what is drawn evenly.

    >>> import lvdc
    >>> deck = lvdc.Deck(lvdc.Image({lvdc.Address(0, 0, 0): 0o17000}), count=2)
    >>> found = lvdc.study(deck, lvdc.scripts.pairs(deck, modules=[3, 5], bits=[0]))
    >>> figure = lvdc.plots.share(found, by="step", of=lvdc.is_different)
    >>> figure.axes[0].get_xlabel()
    'step'
    """
    labelled: Mapping[str, AnyFindings] = {"": findings} if isinstance(findings, Findings) else findings
    drawn = _axes(ax)
    for label, found in labelled.items():
        shares = found.shares(by, of)
        values = list(shares)
        lines = drawn.plot(values, [it.share for it in shares.values()], marker="o", markersize=3, label=label)
        if not found.is_census:
            drawn.fill_between(values, [it.low for it in shares.values()], [it.high for it in shares.values()], alpha=0.2,
                              color=lines[0].get_color())
    holds = what or WHAT.get(of) or getattr(of, "__name__", "of which it holds")
    drawn.set(xlabel=by, ylabel=f"share of runs that {holds}", ylim=(-0.02, 1.02))
    drawn.set_title(_drawn([it for found in labelled.values() for it in found.populations]), fontsize="small")
    if any(labelled):
        drawn.legend(loc="center right")
    return _figure(drawn)


def failures(findings: AnyFindings, by: str | None = "kind", *, ax: "Axes | None" = None) -> "Figure":
    """Inadmissible runs by the module that has two wrong copies, or memory: one bar for each, parted by a column, as the kind of the
    script; or with None by whether the outcome is the same.

    >>> import lvdc
    >>> deck = lvdc.Deck(lvdc.Image({lvdc.Address(0, 0, 0): 0o17000}), count=2)
    >>> found = lvdc.study(deck, lvdc.scripts.pairs(deck, bits=[0]))
    >>> lvdc.plots.failures(found, by=None).axes[0].get_ylabel()
    'inadmissible runs'
    """
    counts: Counter[tuple[str, str]] = Counter()
    if by is not None and len(findings) and by not in findings.columns():
        raise ValueError(f"there is no column {by!r}, but {', '.join(findings.columns())}")
    for row in findings:
        if not isinstance(row.verdict, Admissible):
            where = NAMES[row.verdict.module] if isinstance(row.verdict, Logic) else MEMORY
            counts[where, _part(row, by)] += 1
    drawn = _axes(ax)
    places = [*(NAMES[it] for it in MODULES), MEMORY]
    below = [0] * len(places)
    for part in sorted({it for _, it in counts}):
        heights = [counts[place, part] for place in places]
        drawn.bar(places, heights, bottom=below, label=part)
        below = [low + height for low, height in zip(below, heights)]
    drawn.set(ylabel="inadmissible runs")
    drawn.set_title(_drawn(findings.populations), fontsize="small")
    drawn.tick_params(axis="x", rotation=30)
    if counts:
        drawn.set_ylim(0, 1.05 * max(below))
        drawn.legend()
    return _figure(drawn)


def propagation(wrong: Trace, right: Trace, *, ax: "Axes | None" = None) -> "Figure":
    """How a failure spreads, step by step: which copies of each module differ from their vote, which votes differ from those of the right
    run, and which words are stored otherwise.

    >>> import lvdc
    >>> deck = lvdc.Deck(lvdc.Image({lvdc.Address(0, 0, 0): 0o17000}), count=2)
    >>> hurt = deck.with_faults(lvdc.Flip(3, 1, 0, 0, 0, 1), lvdc.Flip(3, 2, 0, 0, 0, 1))
    >>> lvdc.plots.propagation(lvdc.trace(hurt, through=True), lvdc.trace(deck)).axes[0].get_xlabel()
    'step'
    """
    drawn = _axes(ax)
    differences = list(wrong.diff(right))
    words = sorted({at for it in differences for at in it.words})
    rows = [f"{NAMES[module]} {copy}" for module in MODULES for copy in COPIES if any((module, copy) in it.differing for it in wrong)]
    rows += [f"vote of the {NAMES[module]}" for module in MODULES if any(module in it.votes for it in differences)] + [f"word {at}" for at in words]
    marks = {"copies that differ": [(it.number, rows.index(f"{NAMES[m]} {c}")) for it in wrong for m, c in it.differing],
             "votes that differ": [(it.number, rows.index(f"vote of the {NAMES[m]}")) for it in differences for m in it.votes],
             "words that differ": [(it.number, rows.index(f"word {at}")) for it in differences for at in it.words]}
    for (label, places), color in zip(marks.items(), ("tab:orange", "tab:red", "tab:purple")):
        if places:
            drawn.scatter([step for step, _ in places], [row for _, row in places], marker="s", s=40, label=label, color=color)
    numbers = [it.number for it in wrong]
    if numbers:
        drawn.set_xlim(numbers[0] - 0.7, numbers[-1] + 0.7)
    if len(numbers) <= MOST_TICKS:
        drawn.set_xticks(numbers)
    drawn.set_yticks(range(len(rows)), rows)
    drawn.set_ylim(len(rows) - 0.5, -0.5)
    drawn.set(xlabel="step")
    drawn.grid(axis="x", alpha=0.2)
    if rows:
        drawn.legend(loc="upper left", bbox_to_anchor=(1.0, 1.0))
    return _figure(drawn)


def _part(row: Row, by: str | None) -> str:
    """The part of a bar that a row is counted in."""
    if by is None:
        return "another outcome" if is_different(row) else "the same outcome"
    return str(column(row, by))


def _drawn(populations: Sequence[Population]) -> str:
    """What the runs were drawn from, evenly: each kind once."""
    return "\n".join(f"each run: {it}, drawn evenly" for it in dict.fromkeys(it.each for it in populations))


def axes() -> "Axes":
    """Axes of a new figure, for a picture of one's own: `axes().figure` needs no screen, and is shown where it is a cell's last line.

    >>> import lvdc
    >>> lvdc.plots.axes().figure.get_size_inches().tolist()
    [7.0, 4.0]
    """
    try:
        figure: Any = importlib.import_module("matplotlib.figure").Figure
    except ImportError as error:
        raise ImportError("a picture wants matplotlib: pip install matplotlib, or apt install python3-matplotlib") from error
    found: Axes = type("Picture", (figure,), {"_repr_png_": _png})(figsize=SIZE, layout="constrained").subplots()
    return found


def _axes(ax: "Axes | None") -> "Axes":
    """The axes that are there, or new ones."""
    return axes() if ax is None else ax


def _figure(drawn: "Axes") -> "Figure":
    """The figure of axes."""
    found: Any = drawn.figure
    figure: Figure = found
    return figure


def _png(figure: Any) -> bytes:
    """A figure as a file PNG."""
    file = io.BytesIO()
    figure.savefig(file, format="png")
    return file.getvalue()

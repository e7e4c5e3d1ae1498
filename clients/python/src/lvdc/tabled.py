"""Tables of HTML, as a notebook shows them."""
import html
from collections.abc import Iterable, Sequence

MOST_ROWS = 60


def html_table(headings: Sequence[object], rows: Iterable[Sequence[object]], most: int = MOST_ROWS) -> str:
    """A table with these headings, of at most so many rows; how many more there are is said under it."""
    given = list(rows)
    lines = ["<tr>" + "".join(f"<th>{_cell(it)}</th>" for it in headings) + "</tr>"] if headings else []
    lines += ["<tr>" + "".join(f"<td><code>{_cell(it)}</code></td>" for it in row) + "</tr>" for row in given[:most]]
    more = f"<p>and {len(given) - most} more</p>" if len(given) > most else ""
    return f"<table>{''.join(lines)}</table>{more}"


def _cell(value: object) -> str:
    """What a cell shows."""
    return html.escape("" if value is None else f"{value:.4f}" if isinstance(value, float) else str(value))

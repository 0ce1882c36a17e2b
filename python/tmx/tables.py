"""Tables of text and of HTML."""

from collections.abc import Iterable, Sequence
from html import escape


def text_table(head: Sequence[str], rows: Iterable[Sequence[object]], width: int | None = None) -> str:
    """A table whose columns are as wide as they have to be; numbers stand at the right.

    One that is wider than so many letters is folded, as pandas does: a backslash says that columns follow below, where the first
    one comes again.
    """
    texts = [list(head), *([str(it) for it in row] for row in rows)]
    columns = [[it.rjust(max(map(len, column))) for it in column] for column in zip(*texts)]
    parts = [columns[:1]]
    for column in columns[1:]:
        if width is not None and len("  ".join(it[0] for it in [*parts[-1], column])) + 3 > width and len(parts[-1]) > 1:
            parts.append(columns[:1])
        parts[-1].append(column)
    lines = [["  ".join(row).rstrip() for row in zip(*part)] for part in parts]
    for part in lines[:-1]:
        part[0] += "  \\"
    return "\n\n".join(map("\n".join, lines))


def html_table(head: Sequence[str], rows: Iterable[Sequence[object]]) -> str:
    """The same as a notebook shows it."""
    top = "".join(f"<th>{escape(it)}</th>" for it in head)
    body = "".join("<tr>" + "".join(f"<td>{escape(str(it))}</td>" for it in row) + "</tr>" for row in rows)
    return f"<table><thead><tr>{top}</tr></thead><tbody>{body}</tbody></table>"

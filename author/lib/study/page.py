"""Writes the pieces of a page: escaped text, numbers, tables, and the page around them.

A piece is HTML, as a string. What comes from a report becomes one through `escaped`, so that a name
with `<`, or with bytes that are not UTF-8, is shown and never read as a tag.
"""
import html, itertools, math, pathlib, re

STYLE = pathlib.Path(__file__).with_name("style.css").read_text("utf-8")
# The characters that no page may hold, or that turn the order of the text around.
UNSHOWN = re.compile(r"[\x00-\x08\x0b-\x1f\x7f-\x9f\u202a-\u202e\u2066-\u2069\ud800-\udfff\ufffe"
                     r"\uffff]")
DASH = "–"


def escaped(value):
    """Returns a value as a piece that shows its text."""
    plain = str(value).replace("\r\n", "\n").replace("\r", "\n")
    return html.escape(UNSHOWN.sub("\ufffd", plain))


def decimal(value):
    """Returns a number with one place after the point, or a dash if there is none."""
    if value is None or not math.isfinite(value):
        return DASH
    return f"{value:,.1f}" if abs(value) >= 10000 else f"{value:z.1f}"


def integer(value):
    """Returns a whole number, with commas from five digits on, or a dash if there is none."""
    if value is None:
        return DASH
    return f"{value:,}" if abs(value) >= 10000 else str(value)


def with_error(value, error):
    return f"{decimal(value)} ± {decimal(error)}"


def fresh_percent(fresh):
    """Returns the percent of the points in fresh fights with its error, or a dash."""
    if fresh is None:
        return DASH
    return f"{decimal(fresh['percent'])}% ± {decimal(fresh['error'])}"


def boxed(label, piece):
    """Returns a piece in a box of its own, in which it scrolls if it is too wide."""
    return (f'<div class="box" role="region" tabindex="0" aria-label="{escaped(label)}">'
            f"{piece}</div>")


def head_rows(heads, groups, styles):
    """Yields the rows of a table's head. `groups` are names over several columns."""
    if groups:
        yield "".join(f'<th scope="colgroup" colspan="{span}" class="group">{name}</th>'
                      if name else f'<td colspan="{span}"></td>' for name, span in groups)
    yield "".join(f'<th scope="col" class="{style}">{head}</th>' if head else "<td></td>"
                  for head, style in zip(heads, styles))


def body_row(cells, styles, is_marked):
    """Returns a row of a table, whose first cell is its head."""
    row_style = ' class="marked"' if is_marked else ""
    head, *others = cells
    pieces = (f'<td class="{style}">{cell}</td>' for cell, style in zip(others, styles[1:]))
    return (f'<tr{row_style}><th scope="row" class="text"><div class="name">{head}</div></th>'
            f'{"".join(pieces)}</tr>')


def table(caption, heads, rows, texts=1, groups=(), marked=()):
    """Returns a table in its box, of pieces. The first `texts` columns are words, the others
    numbers; `marked` are the indices of rows that are brought out."""
    group_ends = list(itertools.accumulate(span for _, span in groups))
    styles = ["text" if column < texts else "first" if column in group_ends else "number"
              for column in range(len(heads))]
    head = "".join(f"<tr>{row}</tr>" for row in head_rows(heads, groups, styles))
    body = "".join(body_row(row, styles, index in marked) for index, row in enumerate(rows))
    return boxed(caption, f"<table><caption>{escaped(caption)}</caption><thead>{head}</thead>"
                          f"<tbody>{body}</tbody></table>")


def source(label, text):
    """Returns a text as it is in a file. A page drops the first line end of a `pre`."""
    return boxed(label, f"<pre>\n{escaped(text)}</pre>")


def folded(summary, piece):
    return f"<details><summary>{escaped(summary)}</summary>{piece}</details>"


def page(title, pieces):
    return ('<!DOCTYPE html>\n<html lang="en">\n<head>\n<meta charset="utf-8">\n'
            '<meta name="viewport" content="width=device-width, initial-scale=1">\n'
            f"<title>{escaped(title)}</title>\n<style>{STYLE}</style>\n</head>\n<body>\n<main>\n"
            + "\n".join(pieces) + "\n</main>\n</body>\n</html>\n")

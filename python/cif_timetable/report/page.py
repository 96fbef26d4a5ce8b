"""The page, put together from its templates."""
from __future__ import annotations

from .. import __version__  # pylint: disable=cyclic-import
from .daily import calendar_section, chart_section, operators_section
from .highlights import highlights_section
from .others import associations_section, places_section
from .report import Report
from .summary import figures, files, is_same, lead, title_of, warning
from .templates import Markup, escaped, file_text, fill, joined
from .trains import size_of, trains_section

# A page has at most so many bytes.
MOST_BYTES = 5_000_000
# What is left for the last texts of the page.
RESERVE = 50_000


def page_of(report: Report, title: str | None, most: int) -> Markup:
    first, more = [], []
    if not is_same(report):
        first = [chart_section(report), highlights_section(report)]
        more = [operators_section(report), calendar_section(report)]
    others = [associations_section(report), places_section(report)]
    css, script = file_text("page.css"), file_text("page.js")
    title = title if title is not None else title_of(report)
    # the title stands in two places
    used = size_of([*first, *more, *others, css, script, *[escaped(title)] * 2])
    trains, data = trains_section(report, most, MOST_BYTES - RESERVE - used)
    return fill(
        "page",
        version=__version__,
        title=title,
        lead=lead(report),
        warning=warning(report),
        first=joined(first, "\n"),
        figures=figures(report),
        files=files(report),
        sections=joined([*more, trains, *others], "\n"),
        css=Markup(css),
        data=data,
        script=Markup(script),
    )

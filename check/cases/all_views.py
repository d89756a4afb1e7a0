"""All views worked by hand."""

import importlib

from cases.views import ROWS

__all__ = ["ROWS"]

# Each adds its rows to ROWS.
for name in ("notes", "notes_lost", "notes_unjudged", "evidence", "other_runs", "views_both_sides",
             "views_edges", "summaries"):
    importlib.import_module("cases." + name)

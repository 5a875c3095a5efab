"""The lines of --json: an object each."""

from __future__ import annotations

TYPE_CHECKING = False
if TYPE_CHECKING:
    from typing import Any, Dict


def text_of(row: Dict[str, Any]) -> str:
    """A row as an object of JSON. The module is imported by what needs it: others begin sooner."""
    import json

    return json.dumps(row)

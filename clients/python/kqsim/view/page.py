"""The page: its parts, put together in one file that loads nothing."""
from __future__ import annotations

import html
import json
import pkgutil
import re
from typing import Any, Mapping

# The pieces of the page's script, in their order.
SCRIPTS = ("data.js", "drawing.js", "telling.js", "steps.js")


def part(name: str) -> str:
    """A file beside this one, also where the package stands in an archive."""
    data = pkgutil.get_data(__package__, name)
    assert data is not None
    return data.decode()


def page_of(data: Mapping[str, Any]) -> str:
    # Within a script no < may begin an end tag or a comment.
    text = json.dumps(data, separators=(",", ":")).replace("<", "\\u003c")
    script = "\n".join(map(part, SCRIPTS))
    parts = {"name": html.escape(str(data["name"])), "data": text, "css": part("page.css"), "js": script}
    return re.sub(r"\{\{(\w+)\}\}", lambda it: parts[it.group(1)], part("page.html"))

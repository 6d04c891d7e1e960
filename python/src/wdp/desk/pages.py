"""The pages of a desk: a bidder's, which serves without scripts, too, and the office's."""
from __future__ import annotations

import re
from dataclasses import dataclass
from pathlib import Path
from typing import Any

from aiohttp import web
from aiohttp.web_request import FileField
from jinja2 import Environment, FileSystemLoader, StrictUndefined
from multidict import MultiDictProxy

from wdp.desk.clock import format_time
from wdp.desk.keys import Session
from wdp.desk.outcomes import Outcome
from wdp.desk.service import Desk, Over

_HERE = Path(__file__).parent
_ASSETS = {"/desk.js": "text/javascript", "/desk.css": "text/css"}
_NUMBER = re.compile("[0-9]{1,9}")
_ENVIRONMENT = Environment(
    loader=FileSystemLoader(_HERE),
    autoescape=True,
    undefined=StrictUndefined,
    trim_blocks=True,
    lstrip_blocks=True,
    keep_trailing_newline=True,
)


@dataclass
class PageFields:
    """The fields of a page's form; `over` is None if it wasn't there, `session` if the key isn't
    known.
    """

    key: str = ""
    do: str = ""
    over: Over | None = None
    data: bytes = b""
    may_be_empty: bool = False
    session: Session | None = None


def read_fields(fields: MultiDictProxy[str | bytes | FileField]) -> PageFields:
    """The fields of a page's form."""
    text = {name: value for name, value in fields.items() if isinstance(value, str)}
    over = text.get("over", "")
    file = fields.get("file")
    return PageFields(
        key=text.get("key", "").strip(),
        do=text.get("do", ""),
        over=_read_over(over),
        data=file.file.read() if isinstance(file, FileField) else b"",
        may_be_empty="empty" in text,
    )


def _read_over(text: str) -> Over | None:
    if text == "-":
        return Over(None)
    return Over(int(text)) if _NUMBER.fullmatch(text) else None


def read_asset(path: str) -> web.Response:
    """The page's script or its style."""
    text = (_HERE / path.removeprefix("/")).read_text("utf-8")
    return web.Response(text=text, content_type=_ASSETS[path])


def _render(name: str, **values: Any) -> web.Response:
    text = _ENVIRONMENT.get_template(name).render(**values)
    return web.Response(text=text, content_type="text/html")


def format_page(
    desk: Desk,
    page: PageFields | None,
    *,
    words: str = "",
    outcome: Outcome | None = None,
    state: dict[str, Any] | None = None,
) -> web.Response:
    """A bidder's page: without a state the one that asks for the key."""
    response = _render(
        "page.html.jinja",
        page=page or PageFields(),
        words=words,
        outcome=outcome,
        state=state,
        round=desk.front.round,
        closes=format_time(desk.front.closes),
        is_open=desk.is_open,
    )
    if outcome:
        response.set_status(outcome.status)
    elif words:
        response.set_status(401)
    return response


def format_office(desk: Desk, page: PageFields, state: dict[str, Any]) -> web.Response:
    """The office's page: who has handed in, without any amount."""
    return _render("office.html.jinja", page=page, state=state, round=desk.front.round)

"""The application: addresses, what is refused, and answers that are kept until the file is replaced."""
from __future__ import annotations

import re
from collections import OrderedDict
from collections.abc import Callable
from pathlib import Path
from threading import Lock
from typing import NamedTuple

from flask import Flask, Response, jsonify, redirect, render_template, request, url_for
from werkzeug.exceptions import HTTPException
from werkzeug.routing import BaseConverter
from werkzeug.wrappers import Response as AnyResponse

from .. import __version__
from ..errors import CifError
from . import words
from .pages import Asked, Elsewhere, Page, Wrong, home, pages
from .queries import Identity, check_layout, identity_of, open_timetable

# Answers take so many bytes of memory at most.
MOST_KEPT = 64 << 20
HOST = re.compile(r"(\[[0-9a-f:.]+\]|[^:\[\]]+)(:[0-9]+)?", re.IGNORECASE)
HEADERS = {
    "Content-Security-Policy": "default-src 'none'; style-src 'self'; script-src 'self'; img-src 'self';"
    " connect-src 'self'; form-action 'self'; base-uri 'none'; frame-ancestors 'none'",
    "X-Content-Type-Options": "nosniff",
    "Referrer-Policy": "same-origin",
    "Cross-Origin-Resource-Policy": "same-origin",
    "Cross-Origin-Opener-Policy": "same-origin",
    "Cache-Control": "no-cache",
}
BUSY = "The timetable can't be read at the moment. Try again in a minute."


class PartConverter(BaseConverter):
    """A part of an address. What follows its point is the format."""

    regex = "[^/.]+"


class Kept(NamedTuple):
    """An answer, as it was."""

    kind: str
    body: bytes


class Answers:
    """The latest answers, of one file. Those of another one are dropped."""

    def __init__(self) -> None:
        self.lock = Lock()
        self.identity: Identity | None = None
        self.kept: OrderedDict[str, Kept] = OrderedDict()
        self.size = 0

    def get(self, identity: Identity, address: str) -> Kept | None:
        with self.lock:
            if identity != self.identity or address not in self.kept:
                return None
            self.kept.move_to_end(address)
            return self.kept[address]

    def put(self, identity: Identity, address: str, answer: Kept) -> None:
        with self.lock:
            if identity != self.identity:
                self.identity, self.size = identity, 0
                self.kept.clear()
            if address in self.kept:
                return
            self.kept[address] = answer
            self.size += len(answer.body) + len(address)
            while self.size > MOST_KEPT:
                gone, oldest = self.kept.popitem(last=False)
                self.size -= len(oldest.body) + len(gone)


def wants_json() -> bool:
    return request.path.endswith(".json")


def page_response(found: Page) -> AnyResponse:
    if wants_json():
        return jsonify(found.data)
    if found.meant:
        return elsewhere(found.meant)
    return Response(render_template(f"{found.template}.html", **found.values))


def wrong_response(status: int, text: str) -> AnyResponse:
    """What is said of a request that can't be answered."""
    if wants_json():
        answer: Response = jsonify({"error": text})
    else:
        answer = Response(render_template("wrong.html", title=words.status(status), text=text))
    answer.status_code = status
    return answer


def elsewhere(place: Elsewhere) -> AnyResponse:
    """The way to another address of this application, in the same format."""
    endpoint = place.endpoint + ("_json" if wants_json() else "")
    return redirect(url_for(endpoint, **place.values))  # type: ignore[arg-type]


def add_page(app: Flask, path: Path, rule: str, name: str, view: Callable[..., Page]) -> None:
    """Gives a page its address, and the one with `.json` after it."""

    def answer(**values: str) -> AnyResponse:
        with open_timetable(path) as timetable:
            asked = Asked(timetable, request.args, wants_json())
            return page_response(view(asked, **values))

    app.add_url_rule(rule, name, answer)
    app.add_url_rule(f"{rule}.json", f"{name}_json", answer)


def add_refusals(app: Flask, hosts: frozenset[str]) -> None:
    """What is said of other hosts, of addresses that are wrong, and of what fails."""

    @app.before_request
    def check_host() -> AnyResponse | None:
        found = HOST.fullmatch(request.environ.get("HTTP_HOST", ""))
        if found and found[1].lower() in hosts:
            return None
        text = f"This server answers to {words.either(sorted(hosts))} alone.\n"
        return Response(text, 400, mimetype="text/plain")

    @app.errorhandler(Wrong)
    def wrong(problem: Wrong) -> AnyResponse:
        return wrong_response(problem.status, str(problem))

    @app.errorhandler(Elsewhere)
    def moved(place: Elsewhere) -> AnyResponse:
        return elsewhere(place)

    @app.errorhandler(CifError)
    def unreadable(problem: CifError) -> AnyResponse:
        app.logger.error("%s", problem)
        return wrong_response(503, BUSY)

    @app.errorhandler(HTTPException)
    def other(problem: HTTPException) -> AnyResponse:
        status = problem.code or 500
        if status == 404:
            return wrong_response(404, words.ADDRESSES)
        answer = wrong_response(status, words.status(status) + ".")
        if status == 405:
            answer.headers["Allow"] = "GET, HEAD, OPTIONS"
        return answer


def add_keeping(app: Flask, path: Path) -> None:
    """Answers are kept until the file is replaced. One is only kept if the file is the same before it
    is made and after that."""
    answers = Answers()

    def identity() -> Identity | None:
        try:
            return identity_of(path)
        except OSError:
            return None

    @app.before_request
    def kept() -> AnyResponse | None:
        request.environ["cif.identity"] = found = identity()
        kept = answers.get(found, request.full_path) if found and not is_static() else None
        if kept is None:
            return None
        request.environ["cif.kept"] = True
        return Response(kept.body, mimetype=kept.kind)

    @app.after_request
    def keep(answer: Response) -> Response:
        for name, value in HEADERS.items():
            answer.headers[name] = value
        if is_static() or request.method not in ("GET", "HEAD"):
            return answer
        before = request.environ.get("cif.identity")
        # where a request without a date leads depends on today's
        fresh = answer.status_code == 200 and "cif.kept" not in request.environ
        if before and fresh and not is_home() and before == identity():
            answers.put(before, request.full_path, Kept(answer.mimetype or "", answer.get_data()))
        if answer.status_code == 200:
            answer.add_etag()
            answer.make_conditional(request)
        return answer


def is_static() -> bool:
    return request.endpoint == "static"


def is_home() -> bool:
    return request.endpoint in ("home", "home_json")


def application(path: Path, hosts: frozenset[str]) -> Flask:
    """The application of a database, which is looked at first."""
    check_layout(path)
    app = Flask(__name__)
    app.json.sort_keys = False  # type: ignore[attr-defined]
    app.json.ensure_ascii = False  # type: ignore[attr-defined]
    for name, write in words.FILTERS.items():
        app.add_template_filter(write, name)
    app.jinja_env.trim_blocks = app.jinja_env.lstrip_blocks = True
    app.context_processor(lambda: {"version": __version__})
    app.url_map.converters["part"] = PartConverter
    add_refusals(app, hosts)
    add_keeping(app, path)
    add_page(app, path, "/", "home", home)
    for rule, name, view in pages:
        add_page(app, path, rule, name, view)
    return app

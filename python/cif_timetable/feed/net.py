"""Fetches files by HTTP. Credentials go to the host that they are for, and never to one to which it
redirects; and neither they nor an address behind a redirect are in any message."""
from __future__ import annotations

import http.client
import ssl
import time
import urllib.request
from collections.abc import Callable, Mapping
from dataclasses import dataclass, field
from email.message import Message
from pathlib import Path
from typing import IO, Any
from urllib.error import HTTPError, URLError
from urllib.parse import urlsplit

from .._files import BLOCK
from ..errors import CifError, Damaged, Failed, Misused, Refused
from .whole import new_file

# Seconds until a silent server is given up, and those between one try and the next.
SILENCE = 60.0
PAUSES: tuple[float, ...] = (2.0, 4.0, 8.0, 16.0, 32.0)
# The longest pause that a server may ask for.
LONGEST_PAUSE = 60.0
# What no feed needs: so many seconds and bytes for one file.
MOST_SECONDS = 3600.0
MOST_BYTES = 1 << 33

NOT_MODIFIED = 304
UNAUTHORISED, FORBIDDEN, NOT_FOUND, TOO_MANY = 401, 403, 404, 429
SERVER_FAULTS = 500
PORTS = {"http": 80, "https": 443}
LOOPBACK = ("localhost", "127.0.0.1", "::1")


@dataclass(frozen=True)
class Address:
    """An address, what to call it, and what only its host may know."""

    url: str
    label: str
    secrets: Mapping[str, str] = field(default_factory=dict, repr=False)
    form: bytes | None = field(default=None, repr=False)


@dataclass(frozen=True)
class Known:
    """What a server calls the file that it last gave."""

    etag: str | None = None
    modified: str | None = None

    def headers(self) -> dict[str, str]:
        """Asks for a file only if it is another one."""
        named = {"If-None-Match": self.etag, "If-Modified-Since": self.modified}
        return {name: value for name, value in named.items() if value}


class FetchFault(Failed):
    """A file can't be fetched, which is no fault of this machine."""


class NotThere(FetchFault):
    """A server doesn't have a file."""

    def __init__(self, label: str) -> None:
        super().__init__(f"{label}: it isn't there (HTTP 404)")
        self.label = label


class Unreachable(FetchFault):
    """A server can't be reached, or fails: another try may succeed."""


class Misdirected(Exception):
    """A server redirects to where nobody should follow."""


class Denied(Refused):
    """A server refuses the user and the password."""


def origin_of(url: str) -> tuple[str, str, int]:
    """Scheme, host and port. Each such triple may be another machine."""
    parts = urlsplit(url)
    port = parts.port if parts.port is not None else PORTS.get(parts.scheme, 0)
    return parts.scheme, parts.hostname or "", port


def check_address(url: str, label: str) -> None:
    """Refuses an address that can't be fetched, or that has credentials in it."""
    try:
        scheme, host, _ = origin_of(url)
        has_user = "@" in urlsplit(url).netloc
    except ValueError:
        scheme = host = ""
        has_user = False
    if scheme not in PORTS or not host or not url.isascii() or any(c <= " " for c in url):
        raise Misused(f"{label} has to be an address that begins with https://")
    if has_user:
        raise Misused(f"{label} has a user or a password: they belong in ~/.netrc")


def check_secret(url: str, label: str) -> None:
    """Refuses to send credentials that everybody on the way can read."""
    scheme, host, _ = origin_of(url)
    if scheme != "https" and host not in LOOPBACK:
        raise Misused(f"{label} has to begin with https://, as it gets a password")


class Redirects(urllib.request.HTTPRedirectHandler):
    """Follows redirects. What only a host may know stays there."""

    def redirect_request(
        self, req: urllib.request.Request, fp: Any, code: int, msg: str, headers: Any, newurl: str
    ) -> urllib.request.Request | None:
        before, after = origin_of(req.full_url), origin_of(newurl)
        if after[0] not in PORTS or (before[0] == "https" and after[0] != "https"):
            raise Misdirected
        request = super().redirect_request(req, fp, code, msg, headers, newurl)
        if request is not None and before == after:
            for name, value in req.unredirected_hdrs.items():
                if name not in ("Host", "Content-length", "Content-type"):
                    request.add_unredirected_header(name, value)
        return request


def new_opener() -> urllib.request.OpenerDirector:
    """What opens addresses of http and https alone: no file, no FTP."""
    opener = urllib.request.OpenerDirector()
    for handler in (
        urllib.request.ProxyHandler(),
        urllib.request.HTTPHandler(),
        urllib.request.HTTPSHandler(),
        urllib.request.HTTPDefaultErrorHandler(),
        urllib.request.HTTPErrorProcessor(),
        urllib.request.UnknownHandler(),
        Redirects(),
    ):
        opener.add_handler(handler)
    return opener


def seconds_asked(headers: Message) -> float:
    """The pause that a server asks for, if it gives it in seconds."""
    text = headers.get("Retry-After", "")
    return float(text) if text.isascii() and text.isdigit() else 0.0


def copy_body(response: http.client.HTTPResponse, target: IO[bytes], label: str) -> None:
    """Copies what a server sends, which has to be all that it announces."""
    end = time.monotonic() + MOST_SECONDS
    announced, done = response.getheader("Content-Length"), 0
    while block := response.read(BLOCK):
        target.write(block)
        done += len(block)
        if done > MOST_BYTES or time.monotonic() > end:
            raise FetchFault(f"{label}: it doesn't end")
    if announced is not None and announced.isdigit() and done < int(announced):
        raise Unreachable(f"{label}: the connection broke after {done} of {announced} bytes")


def refusal_of(problem: HTTPError, label: str) -> CifError:
    """What an answer says that isn't a file. Python's own words may have the address."""
    if problem.code in (UNAUTHORISED, FORBIDDEN):
        return Denied(f"{label}: user and password are refused (HTTP {problem.code})")
    if problem.code == NOT_FOUND:
        return NotThere(label)
    if problem.code == TOO_MANY or problem.code >= SERVER_FAULTS:
        return Unreachable(f"{label}: the server fails (HTTP {problem.code})")
    if 300 <= problem.code < 400:
        return FetchFault(f"{label}: it redirects in a circle, or to nowhere (HTTP {problem.code})")
    return FetchFault(f"{label}: the server answers HTTP {problem.code}")


def fault_of(problem: Exception, label: str) -> CifError:
    """What keeps a server from answering."""
    reason = problem.reason if isinstance(problem, URLError) else problem
    if isinstance(reason, ssl.SSLCertVerificationError):
        return FetchFault(f"{label}: its certificate isn't valid: {reason.verify_message}")
    if isinstance(reason, TimeoutError):
        return Unreachable(f"{label}: the server doesn't answer")
    if isinstance(reason, OSError):
        return Unreachable(f"{label}: {reason.strerror or type(reason).__name__}")
    # its words may have an address
    return Unreachable(f"{label}: the connection broke ({type(reason).__name__})")


class Client:
    """Fetches files."""

    def __init__(self) -> None:
        self.opener = new_opener()

    def fetch(
        self,
        address: Address,
        path: Path,
        known: Known = Known(),
        check: Callable[[Path], object] = lambda path: None,
    ) -> Known | None:
        """Writes the file at an address into a path, unless it is the one that is known: then the
        answer is None. Tries again, with growing pauses, if the connection breaks or the server
        fails, or if what came is damaged, as `check` says."""
        for pause in (*PAUSES, None):
            asked = 0.0
            try:
                found = self.try_once(address, path, known)
                if found is not None:
                    check(path)
                return found
            except HTTPError as answer:
                answer.close()
                if answer.code == NOT_MODIFIED:
                    return None
                asked = seconds_asked(answer.headers)
                problem = refusal_of(answer, address.label)
            except Misdirected:
                problem = FetchFault(f"{address.label}: it redirects to what isn't https://")
            except CifError as refused:
                problem = refused
            except (OSError, http.client.HTTPException, ValueError) as fault:
                problem = fault_of(fault, address.label)
            if pause is None or not isinstance(problem, (Unreachable, Damaged)):
                raise problem
            time.sleep(max(pause, min(asked, LONGEST_PAUSE)))
        raise AssertionError("the last try has no pause")

    def try_once(self, address: Address, path: Path, known: Known) -> Known | None:
        request = urllib.request.Request(address.url, address.form, known.headers())
        request.add_header("User-Agent", "cif-feed")
        for name, value in address.secrets.items():
            request.add_unredirected_header(name, value)
        with self.opener.open(request, timeout=SILENCE) as response, new_file(path) as target:
            copy_body(response, target, address.label)
            return Known(response.getheader("ETag"), response.getheader("Last-Modified"))

"""The user and the password of a feed, from the environment or from ~/.netrc."""
from __future__ import annotations

import base64
import netrc
import os
from dataclasses import dataclass, field

from ..errors import Misused

USER, PASSWORD = "CIF_FEED_USER", "CIF_FEED_PASSWORD"
WHERE = f"{USER} and {PASSWORD}, or a line of ~/.netrc"


@dataclass(frozen=True)
class Credentials:
    """A user and a password, which no message shows."""

    user: str = field(repr=False)
    password: str = field(repr=False)

    def basic(self) -> str:
        """The value of a header that has both."""
        return "Basic " + base64.b64encode(f"{self.user}:{self.password}".encode()).decode()


def take_from_environment() -> Credentials | None:
    """Those of the environment, from which they are removed: no other program gets them."""
    user, password = os.environ.pop(USER, ""), os.environ.pop(PASSWORD, "")
    if bool(user) != bool(password):
        raise Misused(f"of {USER} and {PASSWORD} only one is set")
    return Credentials(user, password) if user else None


def from_netrc(host: str) -> Credentials | None:
    """Those that ~/.netrc has for a host."""
    try:
        found = netrc.netrc().authenticators(host)
    except FileNotFoundError:
        return None
    except netrc.NetrcParseError as problem:
        if "permissive" in problem.msg or "owner" in problem.msg:
            raise Misused("~/.netrc: only its owner may read it: chmod 600 ~/.netrc") from None
        # Python's words may have the password
        raise Misused(f"~/.netrc: line {problem.lineno} can't be read") from None
    except ValueError:
        raise Misused("~/.netrc isn't a text") from None
    if found is None or not found[0] or not found[2]:
        return None
    return Credentials(found[0], found[2])


def credentials_for(host: str, environment: Credentials | None) -> Credentials | None:
    """Those for a host: the environment's before those of ~/.netrc."""
    found = environment or from_netrc(host)
    if found and ":" in found.user:
        raise Misused("the user has a colon, which HTTP can't send")
    return found

"""Which requests the board answers: only those of its own page. Hosts, origins, tokens, and the headers of replies."""
from __future__ import annotations

import hashlib
import hmac
import secrets
from email.message import Message
from typing import Dict, List, Optional

ADDRESS = "127.0.0.1"
NAMES = (ADDRESS, "localhost")

# nothing from elsewhere, no script and no style in the page itself, no frame around it, and no text taken as a script
POLICY = "; ".join((
    "default-src 'none'", "script-src 'self'", "style-src 'self'", "img-src 'self'", "connect-src 'self'",
    "form-action 'self'", "base-uri 'none'", "frame-ancestors 'none'", "require-trusted-types-for 'script'",
    "trusted-types 'none'"))

HEADERS: Dict[str, str] = {
    "Content-Security-Policy": POLICY, "X-Content-Type-Options": "nosniff", "X-Frame-Options": "DENY",
    "Referrer-Policy": "no-referrer", "Cross-Origin-Resource-Policy": "same-origin",
    "Cross-Origin-Opener-Policy": "same-origin", "Cache-Control": "no-store",
}


class Tokens:
    """The tokens of forms, one for each action. Only a page that may read the board's own pages has them."""

    def __init__(self) -> None:
        self._secret = secrets.token_bytes(32)

    def of(self, action: str) -> str:
        """The token of an action, such as `build` or `drop 3`."""
        return hmac.new(self._secret, action.encode(), hashlib.sha256).hexdigest()

    def fits(self, action: str, given: str) -> bool:
        return hmac.compare_digest(self.of(action).encode(), given.encode("utf-8", "surrogateescape"))


def hosts(port: int) -> List[str]:
    """What a browser that asks this port of this machine sends as its host."""
    named = [f"{name}:{port}" for name in NAMES]
    return named + list(NAMES) if port == 80 else named


def only(headers: Message, name: str) -> Optional[str]:
    """The value of a header that is there once; None if it isn't there, and an empty text if it is there twice."""
    values = headers.get_all(name) or []
    return str(values[0]).strip().lower() if len(values) == 1 else "" if values else None


def refusal(port: int, method: str, path: str, headers: Message) -> Optional[str]:
    """Why a request isn't answered; None if it may be. It says nothing of tokens.

    The host has to be this machine's own (a name of another domain may lead here too), and the origin that of the
    board. A browser says from which site a request comes: only a person may come to the page itself from elsewhere.
    """
    host = only(headers, "Host")
    if host is None or host not in hosts(port):
        return "the host isn't that of the board"
    origin = only(headers, "Origin")
    if origin != f"http://{host}" and (origin is not None or method != "GET"):
        return "the origin isn't that of the board"
    site = only(headers, "Sec-Fetch-Site")
    is_visit = method == "GET" and path == "/" and only(headers, "Sec-Fetch-Mode") == "navigate"
    if site not in (None, "same-origin", "none") and not is_visit:
        return "the request comes from another site"
    return None

"""The address of a server: a port of a host, by TLS if a proxy speaks it; or a Unix socket."""
from __future__ import annotations

import socket
from dataclasses import dataclass
from typing import TYPE_CHECKING, Any, Optional, Union

from .core import TooLong, checked_number

if TYPE_CHECKING:
    # (it takes long to import, and most clients don't need it)
    import ssl

__all__ = ["UNIX", "Port", "Address", "checked_address"]

# what the address of a Unix socket begins with; its path follows
UNIX = "unix:"
Port = Union[int, str]


@dataclass(frozen=True)
class Address:
    """A port of a host, or `unix:` and the path of a socket; and by which context TLS is spoken, if it is."""

    port: Port
    host: str = "127.0.0.1"
    tls: Optional[ssl.SSLContext] = None

    def __str__(self) -> str:
        return f"{self.host}:{self.port}" if self.path is None else str(self.port)

    @property
    def path(self) -> Optional[str]:
        """The path of a Unix socket, or None for a port."""
        return self.port[len(UNIX):] if isinstance(self.port, str) else None

    def described(self) -> str:
        """The address in a message."""
        return f"{self.host}, port {self.port}" if self.path is None else str(self.port)

    def connected(self, timeout: Optional[float]) -> socket.socket:
        """A connection to the server. Raises OSError or ValueError."""
        connection = self._opened(timeout)
        try:
            if self.path is None:
                connection.setsockopt(socket.IPPROTO_TCP, socket.TCP_NODELAY, 1)
            return connection if self.tls is None else self.tls.wrap_socket(connection, server_hostname=self.host)
        except BaseException:
            connection.close()
            raise

    def _opened(self, timeout: Optional[float]) -> socket.socket:
        if self.path is None:
            return socket.create_connection((self.host, int(self.port)), timeout)
        connection = socket.socket(socket.AF_UNIX, socket.SOCK_STREAM)
        try:
            connection.settimeout(timeout)
            connection.connect(self.path)
        except BaseException:
            connection.close()
            raise
        return connection


def checked_address(port: Any, host: Any, timeout: Any, tls: Any) -> Address:
    """The address that a client is given. Raises TypeError if one of them is of a wrong type, and `TooLong` for a
    number that is no port, and for a timeout that is no time to wait."""
    if not (isinstance(port, str) and port.startswith(UNIX)):
        if isinstance(port, str):
            raise TypeError(f"a port must be an int, or the str {UNIX}PATH of a Unix socket, not {port!r}")
        checked_number(port, "a port", 65535)
    if not isinstance(host, str):
        raise TypeError(f"a host must be a str, not {type(host).__name__}")
    if timeout is not None and not isinstance(timeout, (int, float)):
        raise TypeError(f"a timeout must be a number of seconds or None, not {type(timeout).__name__}")
    if timeout is not None and not 0 < timeout < float("inf"):
        raise TooLong(f"a timeout must be more than 0 seconds, or None to wait without end, not {timeout}")
    if tls is not None and not hasattr(tls, "wrap_socket"):
        raise TypeError(f"tls must be an ssl.SSLContext or None, not {type(tls).__name__}")
    return Address(port, host, tls)

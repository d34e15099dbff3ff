"""Client of iconvd, a character set conversion service.

    import iconvd
    iconvd.convert(b"\xc1\xc2", to="UTF-8", source="KOI8-R")     # one text
    iconvd.register()
    open("letter.txt", encoding="iconvd-koi8-r")        # codecs by name

The environment variable ICONVD names the server: `exec:COMMAND`, `unix:PATH` or `tcp:HOST:PORT`. Without it a server
`iconvd pipe` is started when it is first needed, and ends with the program.
"""

from .aio import AsyncClient
from .client import Client, convert, default, supports, use
from .codecs import register
from .errors import (
    CharmapRefused,
    ConversionError,
    IconvdError,
    RequestRefused,
    ServerLost,
    TimedOut,
    UnknownEncoding,
)
from .pieces import Conversion

__all__ = [
    "AsyncClient",
    "CharmapRefused",
    "Client",
    "Conversion",
    "ConversionError",
    "IconvdError",
    "RequestRefused",
    "ServerLost",
    "TimedOut",
    "UnknownEncoding",
    "convert",
    "default",
    "register",
    "supports",
    "use",
]
__version__ = "0.1.0"

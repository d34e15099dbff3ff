"""A policy for Python's email package under which the service decodes all text of a message.

    import email, iconvd.email
    message = email.message_from_bytes(data, policy=iconvd.email.policy)
    message["Subject"], message.get_filename(), [part.get_content() for part in message.walk() if not part.is_multipart()]

Bytes that cannot be decoded become U+FFFD. A charset that nobody knows is read as US-ASCII. No message makes it raise an exception; a
server that is lost does (ServerLost).
"""

from __future__ import annotations

from email.contentmanager import ContentManager, raw_data_manager
from email.message import EmailMessage, Message
from email.policy import EmailPolicy
from email.utils import quote
from typing import Any, Optional, Union

from .client import Client
from .mail_headers import Headers, Texts
from .together import Encoded

__all__ = ["MailMessage", "ServiceContent", "ServicePolicy", "policy"]

#: How many multiparts and messages may be within each other. Python's parser needs a stack for each.
MAX_DEPTH = 100


class MailMessage(EmailMessage):
    """A message or a part. Its parameters are those of the parsed headers."""

    _depth = 0

    def attach(self, payload: Any) -> None:
        """Adds a part, also while a message is parsed."""
        if isinstance(payload, MailMessage):
            payload._depth = self._depth + 1
        super().attach(payload)

    def set_payload(self, payload: Any, charset: Any = None) -> None:
        """Sets the payload. A text of both raw bytes and other characters becomes bytes of UTF-8: Python has no bytes for it."""
        super().set_payload(_as_bytes(payload) if isinstance(payload, str) else payload, charset)

    def get_content_type(self) -> str:
        """Returns the type. What is deeper than MAX_DEPTH is not taken apart: its type is `application/octet-stream`."""
        found = super().get_content_type()
        is_too_deep = self._depth >= MAX_DEPTH and found.startswith(("multipart/", "message/"))
        return "application/octet-stream" if is_too_deep else found

    def get_param(self, param: str, failobj: Any = None, header: str = "content-type", unquote: bool = True) -> Any:
        """Returns a parameter of a header, decoded."""
        params = getattr(self.get(header), "params", None)
        if params is None:
            return super().get_param(param, failobj, header, unquote)
        if param.lower() not in params:
            return failobj
        value = str(params[param.lower()])
        return value if unquote else f'"{quote(value)}"'


class ServiceContent(ContentManager):
    """Reads the content of parts: text by the service, other parts as bytes. It writes content as Python does."""

    def __init__(self, texts: Texts) -> None:
        super().__init__()
        self._texts = texts
        self.add_get_handler("text", self._text)
        self.add_get_handler("message/rfc822", self._message)
        self.add_get_handler("message/external-body", self._message)
        self.add_get_handler("message", self._source)
        self.add_get_handler("", self._other)

    def set_content(self, msg: Message, obj: Any, *args: Any, **kw: Any) -> None:
        """Sets the content of a part, as Python's own content manager does."""
        raw_data_manager.set_content(msg, obj, *args, **kw)

    def _text(self, part: Message, errors: str = "replace") -> str:
        charset = part.get_param("charset", "us-ascii")
        name = charset if isinstance(charset, str) else charset[2]
        return self._texts.decode([Encoded(name, _data(part))], errors)[0]

    def _message(self, part: Message) -> Any:
        payload = part.get_payload()
        return payload[0] if isinstance(payload, list) and payload else _data(part)

    def _source(self, part: Message) -> bytes:
        """Returns a message of a kind that is no message by itself, such as the beginning of one, as its bytes."""
        payload = part.get_payload()
        if not isinstance(payload, list) or not payload or not isinstance(payload[0], Message):
            return _data(part)
        inner = payload[0]
        for writing in (inner.policy, inner.policy.clone(refold_source="none")):
            try:
                return inner.as_bytes(policy=writing)
            except Exception:  # a header that Python cannot fold
                continue
        return b""

    def _other(self, part: Message) -> bytes:
        if part.is_multipart():
            raise KeyError(part.get_content_type())
        return _data(part)


def _as_bytes(text: str) -> str:
    """Returns a text that is ASCII and escaped bytes, or has no escaped bytes."""
    for encoding, errors in (("utf-8", "strict"), ("ascii", "surrogateescape")):
        try:
            text.encode(encoding, errors)
            return text
        except UnicodeEncodeError:
            continue
    try:
        data = text.encode("utf-8", "surrogateescape")
    except UnicodeEncodeError:
        data = text.encode("utf-8", "surrogatepass")
    return data.decode("ascii", "surrogateescape")


def _data(part: Message) -> bytes:
    """Returns the bytes of a part: those of its source if they cannot be decoded."""
    try:
        data: Union[bytes, Any] = part.get_payload(decode=True)
    except Exception:  # uuencoded lines that are none
        data = part.get_payload()
    return data if isinstance(data, bytes) else str(data or "").encode("utf-8", "surrogateescape")


class ServicePolicy(EmailPolicy):
    """Python's EmailPolicy, with text decoded by the service."""

    def __init__(self, client: Optional[Client] = None, **kw: Any) -> None:
        """`client` is that of the service: by default the one that `iconvd.convert` uses. The other arguments are those of
        `email.policy.EmailPolicy`."""
        texts = Texts(client)
        kw.setdefault("message_factory", MailMessage)
        kw.setdefault("header_factory", Headers(texts))
        kw.setdefault("content_manager", ServiceContent(texts))
        super().__init__(**kw)


#: The policy with the default client.
policy = ServicePolicy()

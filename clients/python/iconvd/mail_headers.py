"""Headers of mail whose encoded words and parameters the service decodes.

The words (RFC 2047) and parameters (RFC 2231) of a header are decoded by the service, and written in UTF-8 in their places. Then Python's
email package parses the header. So no other charset, and no name of one that a message has, gets to Python's codecs.
"""

from __future__ import annotations

import re
from email.headerregistry import HeaderRegistry
from typing import Any, Callable, Dict, Iterator, List, Optional, Sequence, Union

from . import mail_parameters, mail_words
from .client import Client, default
from .together import Decoding, Encoded, decode_all

#: The texts of how many words are kept, and the most bytes of such a word. A header is parsed each time that a program asks for it.
_MAX_KEPT, _MAX_KEPT_BYTES = 256, 1024
_WITH_PARAMETERS = ("content-type", "content-disposition")
_NEITHER_TEXT_NOR_ADDRESS = re.compile(r"[^A-Za-z0-9@.,+=/;_ -]")


class Texts:
    """Decodes bytes by the names of charsets that messages have."""

    def __init__(self, client: Optional[Client]) -> None:
        """Without a client it is the default one."""
        self._client = client
        self._kept: Dict[Encoded, str] = {}

    def __deepcopy__(self, memo: object) -> Texts:
        """Copies of a message share the client."""
        return self

    def decode(self, texts: Sequence[Encoded], errors: str = "replace") -> List[str]:
        """Decodes texts. One in an encoding that the client lacks is read as US-ASCII."""
        client = self._served()
        decoding = Decoding(client.library, errors)
        return client.run(lambda session: decode_all(session, texts, decoding)) if texts else []

    def _served(self) -> Client:
        return self._client if self._client is not None else default()

    def may_join(self, charset: str) -> bool:
        """Whether texts of a charset that follow each other are one text: they have neither marks nor shifts."""
        return Decoding(self._served().library, "").is_plain(charset)

    def words(self, words: Sequence[Encoded]) -> Iterator[str]:
        """Decodes the words of a header, most of which are asked for again."""
        found = {word: self._kept.get(word) for word in words}
        new = [word for word, text in found.items() if text is None]
        found.update(zip(new, self.decode(new)))
        if len(self._kept) + len(new) > _MAX_KEPT:
            self._kept.clear()
        if len(new) <= _MAX_KEPT:
            self._kept.update((word, found[word] or "") for word in new if len(word.data) <= _MAX_KEPT_BYTES)
        return iter([found[word] or "" for word in words])


class Headers(HeaderRegistry):
    """Makes header objects. No value of a header makes it raise an exception, unless the server is lost."""

    def __init__(self, texts: Texts) -> None:
        super().__init__()
        self._texts = texts
        self._classes: Dict[str, Any] = {}

    def __getitem__(self, name: str) -> Any:
        found = self._classes.get(name.lower())
        if found is None:
            found = super().__getitem__(name)
            if name.lower() in self.registry:
                self._classes[name.lower()] = found
        return found

    def map_to_type(self, name: str, cls: Any) -> None:
        """Registers the class of a header."""
        super().map_to_type(name, cls)
        self._classes.clear()

    def __call__(self, name: str, value: Any) -> Any:
        if not isinstance(value, str):
            return super().__call__(name, value)
        for text in self._tries(name.lower(), value):
            try:
                return super().__call__(name, text)
            except Exception:  # the parser of Python's email package has several that nothing says
                continue
        return super().__call__(name, "")

    def _tries(self, name: str, value: str) -> Iterator[str]:
        """Yields the value, and for a value that cannot be parsed its words alone."""
        text = value
        if name in _WITH_PARAMETERS:
            text = self._decoded(mail_parameters.split(text, name == "content-type"), mail_parameters.written)
        if "=?" in text:
            text = self._decoded(mail_words.split(text, self._texts.may_join), mail_words.written)
        yield text
        yield _NEITHER_TEXT_NOR_ADDRESS.sub(" ", value)

    def _decoded(self, pieces: Sequence[Union[str, Encoded]], written: Callable[[str], str]) -> str:
        texts = self._texts.words([piece for piece in pieces if isinstance(piece, Encoded)])
        return "".join(piece if isinstance(piece, str) else written(next(texts)) for piece in pieces)

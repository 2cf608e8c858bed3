"""Refusals: a call's number that is not 0, as an exception that says which rule, where, and in the words of igc."""
from __future__ import annotations

import ctypes
from typing import Any, Dict, Tuple

from ._library import ANSWER, Answer, Call, library

NOT_FOUND = 31
_LONGEST = 400


class Refused(ValueError):
    """A file, or a call, that is against a rule.

    number, name: which rule, as 23 and 'POSITION'. line, byte: where, counted from 1; 0 where no place is told. explanation: what igc prints of it, with the line and a caret.
    whose: of a merge, 1 or 2 where that file is refused, else 0.

    >>> import hivebasket
    >>> try:
    ...     hivebasket.check(b"AXYZ001\\r\\nHFDTE300224\\r\\n")
    ... except hivebasket.Refused as refused:
    ...     print(refused.number, refused.name, refused.line, refused.byte)
    ...     print(refused.explanation, end="")
    25 DATE 2 6
    REFUSED 25 DATE, line 2, byte 6: date against its rule
    HFDTE300224
         ^
    """

    number: int
    name: str
    line: int
    byte: int
    explanation: str
    whose: int

    def __init__(self, number: int, line: int = 0, byte: int = 0, data: bytes = b"", whose: int = 0) -> None:
        self.number, self.line, self.byte, self.whose = number, line, byte, whose
        self.name = _words(library.hive_name, number)
        self.explanation = _words(library.hive_explain, data, len(data), number, line, byte)
        super().__init__(self.reason)

    @property
    def reason(self) -> str:
        """The first line of the explanation."""
        return self.explanation.split("\n")[0]

    def __reduce__(self) -> Tuple[Any, ...]:
        # Pickled with its words, not with the file that they were made from.
        return _remade, (self.__dict__.copy(),)


def _remade(parts: Dict[str, Any]) -> Refused:
    refused = Refused.__new__(Refused)
    refused.__dict__.update(parts)
    refused.args = (refused.reason,)
    return refused


def _words(call: Call, *words: Any) -> str:
    """The words that a call puts into a lent text."""
    text, answer = ctypes.create_string_buffer(_LONGEST), Answer()
    if call(*words, text, _LONGEST, answer, ANSWER):
        return ""
    return text.raw[: answer[2]].decode("latin-1")


def answered(call: Call, *words: Any, of: bytes = b"") -> Any:
    """The sixteen numbers that a call answers with. Raises Refused, told of the file `of`, where the call's number is not 0."""
    answer = Answer()
    number = call(*words, answer, ANSWER)
    if number:
        raise Refused(number, answer[0], answer[1], of)
    return answer

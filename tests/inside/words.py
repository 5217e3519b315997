"""A word of the machine, from its nine hexadecimal digits (docs/RULES.md, Words)."""
from typing import NamedTuple, Optional

from wrong import Wrong, need

NULL, NIL, LIST, STRUCT, HEADER, HEADER_FORWARD, GC_FORWARD, FIXNUM = range(8)   # tags
NEXT, LAST, NORMAL, SECOND = range(4)                                            # cdr codes
FORWARDS = (HEADER_FORWARD, GC_FORWARD)
ADDRESSES = (LIST, STRUCT) + FORWARDS
PAGE, REGION = 256, 4096
MOST_HEADER = 2**27


class Word(NamedTuple):
    """The cdr code, the tag, and the number, address or payload."""
    code: int
    tag: int
    low: int

    @property
    def address(self) -> Optional[int]:
        return self.low if self.tag in ADDRESSES else None

    @property
    def fields(self) -> int:
        """The number of fields in a header."""
        return self.low % 2048

    @property
    def block_code(self) -> int:
        """The code in a header."""
        return self.low // 2048


def read_word(digits: str) -> Word:
    """The word of nine digits, which has to be one."""
    bits = int(digits, 16)
    code, major, low = bits >> 34, bits >> 32 & 3, bits & 0xFFFFFFFF
    if major == 1:
        return Word(code, FIXNUM, low - 2**32 if low >> 31 else low)
    word = Word(code, low >> 28, low & 0xFFFFFFF)
    if major > 1 or word.tag > GC_FORWARD:
        raise Wrong(f"{digits} is no word: no such tag")
    need(word.tag > NIL or word.low == 0, f"{digits} is no word: NULL or NIL with a payload")
    need(word.tag != HEADER or word.low < MOST_HEADER, f"{digits} is no word: a header's payload is too large")
    return word

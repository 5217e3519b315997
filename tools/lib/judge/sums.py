"""Sets of sums as numbers: bit n is set if n is among the sums."""
from typing import Iterable, Iterator

ZERO_ALONE = 1


def count(sums: int) -> int:
    return bin(sums).count("1")


def least(sums: int) -> int:
    return (sums & -sums).bit_length() - 1


def greatest(sums: int) -> int:
    return sums.bit_length() - 1


def of_any(charges: Iterable[int]) -> int:
    """The sums of any of the charges."""
    out = ZERO_ALONE
    for charge in charges:
        out |= out << charge
    return out


def up_to(n: int) -> int:
    """All sums up to n."""
    return (1 << (n + 1)) - 1


def each(sums: int) -> Iterator[int]:
    """The sums, ascending."""
    at = 0
    while sums:
        low = least(sums)
        at += low
        yield at
        sums >>= low + 1
        at += 1


def added(one: int, other: int) -> int:
    """Each sum of one set added to each of the other."""
    few, many = (one, other) if count(one) <= count(other) else (other, one)
    out = 0
    for n in each(few):
        out |= many << n
    return out


def that_lead_to(sums: int, others: int, allowed: int) -> int:
    """Those of the sums that with some of the others make an allowed one."""
    if others == ZERO_ALONE:
        return sums & allowed
    kept = 0
    for n in each(sums):
        if (others << n) & allowed:
            kept |= 1 << n
    return kept

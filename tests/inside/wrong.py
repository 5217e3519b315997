"""How a judge reports an output that can't be right."""


class Wrong(Exception):
    """Something in an output is impossible; the text says what."""


def need(holds: object, what: str) -> None:
    """Rejects the output unless this holds."""
    if not holds:
        raise Wrong(what)

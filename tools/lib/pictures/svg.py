"""Small pieces of SVG: shapes and texts as strings."""
from html import escape
from typing import Iterable

# Colours that the colour-blind can distinguish (M. Okabe and K. Ito).
ORANGE, SKY, GREEN, YELLOW = "#E69F00", "#56B4E9", "#009E73", "#F0E442"
BLUE, VERMILION, PURPLE, BLACK = "#0072B2", "#D55E00", "#CC79A7", "#000000"
GREY = "#767676"

STYLE = "text{font:12px ui-monospace,Menlo,Consolas,monospace;fill:#000}.big{font-size:14px;font-weight:bold}.small{font-size:10px;fill:#555}"


def rect(x: float, y: float, width: float, height: float, fill: str = "none", line: str = GREY, more: str = "") -> str:
    return f'<rect x="{x:g}" y="{y:g}" width="{width:g}" height="{height:g}" fill="{fill}" stroke="{line}" {more}/>'


def text(x: float, y: float, words: str, kind: str = "", more: str = "") -> str:
    named = f'class="{kind}" ' if kind else ""
    return f'<text x="{x:g}" y="{y:g}" {named}{more}>{escape(words)}</text>'


def page(width: float, height: float, title: str, told: str, pieces: Iterable[str]) -> str:
    """A whole drawing, with a title and a description for those who can't see it."""
    return (f'<svg xmlns="http://www.w3.org/2000/svg" width="{width:g}" height="{height:g}" viewBox="0 0 {width:g} {height:g}" role="img">\n'
            f"<title>{escape(title)}</title>\n<desc>{escape(told)}</desc>\n<style>{STYLE}</style>\n"
            f"{rect(0, 0, width, height, '#FFFFFF', 'none')}\n" + "\n".join(pieces) + "\n</svg>\n")

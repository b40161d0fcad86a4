"""The colour of each fleet, and of the letters that are readable on it."""

from typing import Iterable, List

# Colours that are told apart in print and by most eyes. Further fleets have the same ones, hatched.
COLOURS = ("#0072b2", "#e69f00", "#009e73", "#cc79a7", "#56b4e9", "#d55e00", "#8458b3", "#b8a900", "#a0705f", "#7a8699")
DARK, LIGHT = "#10161f", "#ffffff"


class Palette:
    """The colours of fleets, by their order."""

    def __init__(self, fleets: Iterable[str]) -> None:
        self.place = {it: at for at, it in enumerate(fleets)}

    def kind(self, fleet: str) -> str:
        """Returns the class of a fleet's colour."""
        return f"f{self.place[fleet] % len(COLOURS)}"

    def is_hatched(self, fleet: str) -> bool:
        """Returns whether another fleet before it has the same colour."""
        return self.place[fleet] >= len(COLOURS)


def rules() -> str:
    """Returns the rules of the style sheet for the colours."""
    return "".join(f".f{at}{{--c:{it};--ink-on:{ink_on(it)}}}" for at, it in enumerate(COLOURS))


def ink_on(colour: str) -> str:
    """Returns the letters' colour that differs most from a colour below them."""
    light = (luminance(LIGHT) + 0.05) / (luminance(colour) + 0.05)
    dark = (luminance(colour) + 0.05) / (luminance(DARK) + 0.05)
    return LIGHT if light >= dark * 0.8 else DARK


def luminance(colour: str) -> float:
    """Returns how light a colour is, from 0 to 1."""
    parts = (int(colour[at : at + 2], 16) / 255 for at in (1, 3, 5))
    linear: List[float] = [it / 12.92 if it <= 0.04 else ((it + 0.055) / 1.055) ** 2.4 for it in parts]
    return 0.2126 * linear[0] + 0.7152 * linear[1] + 0.0722 * linear[2]

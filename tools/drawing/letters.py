"""How wide a text is, before a browser has set it: as wide as in DejaVu Sans, which is wider than most letters."""

from functools import lru_cache

# Thousandths of the size of the letters. Other letters count as the widest small ones.
WIDTHS = {
    **dict.fromkeys("0123456789", 636),
    **dict(zip("ABCDEFGHIJKLM", (684, 686, 698, 770, 632, 575, 775, 752, 295, 295, 656, 557, 863))),
    **dict(zip("NOPQRSTUVWXYZ", (748, 787, 603, 787, 695, 635, 611, 732, 684, 989, 685, 611, 685))),
    **dict(zip("fijlrt .,:/-", (352, 278, 278, 278, 411, 392, 318, 318, 318, 337, 337, 361))),
    **dict.fromkeys("+→−", 838),
}
OTHER = 640
# How much wider strong letters are.
STRONG = 1.1


@lru_cache(maxsize=None)
def width_of(text: str, size: float, is_strong: bool = False) -> float:
    """Returns about how many pixels wide a text is."""
    return sum(WIDTHS.get(it, OTHER) for it in text) * size / 1000 * (STRONG if is_strong else 1)

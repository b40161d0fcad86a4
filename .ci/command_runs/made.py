"""Calls made from the table of words: of each command good ones, and those with something wrong."""

from typing import Dict, Iterator, List

from fleetplan.words import COMMANDS, HELP, OPTIONS, VERSION

Words = List[str]
# Of each option values in and out of its form, at its bounds and beyond them, and in the form of another one.
MOST, BEYOND = "00000000000000000007", "000000000000000000007"
VALUES: Dict[str, Words] = {
    "day-start": ["00:00", "23:59", "24:00", "3:00", "03:60", "0300", "03.00", " 03:00", "03:00:00", "٠٣:٠٠"],
    "period": ["1", "7", "0", "8", MOST, BEYOND, "+5", "0x1"],
    "through-max": ["0", "1439", "1440", "1e3", "60 "],
    "days": ["1", "30", "0", "31", "3.0", "३"],
    "least-night": ["540", "0", "1440", "1441", "-1", "9:00", "540.0", MOST, BEYOND, ""],
    "visits": ["0", "1000000", "1000001", "200,000"],
    "search": ["fixed", "free", "Free", "fre", "frees", " free", "fixed|free", "1", ""],
    "nodes": ["0", "1000000", "1000001", ""],
    "pivots": ["0", "1000000", "1000001", "99999999999999999999", "all"],
    "first-day": ["2026-11-27", "0001-01-01", "2026-11-28", "0000-01-01", "2026-02-29", "27.11.2026", "2026-11-27 ", ""],
}
# Of each word behind DIR the same.
TEXTS: Dict[str, Words] = {
    "DATE": ["0001-01-01", "9999-12-31", "0000-01-01", "10000-01-01", "2024-02-29", "2026-02-29", "2026-13-01", "2026-11-31", "1.12.2026", "2026-1-1",
             "2026/11/27", "", "2026-11-27 "],
    "COUNT": ["1", "366", "0", "367", "500", "501", "seven", MOST, BEYOND],
    "NUMBER": ["0", "2147483647", "2147483648", "-1", "x"],
    "LEGS": ["0", "1000", "1002", "41", "2.0"],
    "FLEET": ["F1", "", "f1", "A B", "-", "ABCDEFGHIJ", "é"],
}  # fmt: skip
# Words before a command, and in the place of one.
FIRST = ["", "-", "--", "solv", "Solve", "SOLVE", "judge ", "dir", "--day-start", "-d", "--nodes=5", "hlep", "man", "-v", "/", "é"]


def good(command: str) -> Words:
    """Returns a call of a command without options."""
    return [command, "dir", *(it.example for it in COMMANDS[command].words.values())]


def numbers() -> Iterator[Words]:
    """Yields calls with too few and too many words, and with a folder of another form."""
    for command in COMMANDS:
        words = good(command)
        yield from (words[:length] for length in range(1, len(words) + 1))
        yield from ([*words, "more"], [*words, ""], [*words, "-"], [command, "--", *words[1:]], [*words, "--"])
        yield from ([command, folder, *words[2:]] for folder in ("", "-", "-d", "d r", "dir/", "--", "é"))
        yield from ([*words, "--", "-x"], [*words[:-1], "--", words[-1]], ["--", *words])


def options() -> Iterator[Words]:
    """Yields calls with each option of each command, theirs or not, as it is to be and otherwise."""
    for command in COMMANDS:
        words = good(command)
        for name, option in OPTIONS.items():
            value = [VALUES[name][0]] if option.form else []
            yield [*words, f"--{name}", *value]
            yield [command, f"--{name}", *value, *words[1:]]
            yield [*words, f"--{name}"]
            yield [*words, f"--{name}={value[0] if value else 'true'}"]
            yield [*words, f"--{name}", *value, f"--{name}", *value]
        name = next(iter(COMMANDS[command].options), "json")
        yield from ([*words, it] for it in (f"-{name}", f"--{name.upper()}", f"--{name[:-1]}", f"--{name}s", "-x", "-5", "---", "--=", "--no"))


def values() -> Iterator[Words]:
    """Yields calls with values of options and words in and out of their forms."""
    for name, texts in VALUES.items():
        command = next(it for it in COMMANDS if name in COMMANDS[it].options)
        for text in texts:
            yield [*good(command), f"--{name}", text]
            yield [*good(command), f"--{name}={text}"]
    for command, own in COMMANDS.items():
        for place, name in enumerate(own.words, 2):
            for text in TEXTS[name]:
                words = good(command)
                words[place] = text
                yield words
    yield from (["tails", "dir", "9999-12-25", "7"], ["tails", "dir", "9999-12-25", "8"], ["due", "dir", "9999-01-01", "366"])


def helps() -> Iterator[Words]:
    """Yields calls for help and for the version, and words that are no command."""
    yield []
    for word in (*HELP, *VERSION, *FIRST):
        yield from ([word], [word, "dir"], [word, *good("solve")])
    for command in COMMANDS:
        words = good(command)
        for word in ("-h", "--help"):
            yield from ([command, word], [*words, word], [command, word, *words[1:]], [*words, "--", word], [*words, f"{word}=1"])
        yield from ([*words, it] for it in ("help", "--version", "-V"))


def calls() -> List[Words]:
    """Returns all calls, each once."""
    made = [it for part in (numbers, options, values, helps) for it in part()]
    return list({tuple(it): it for it in made}.values())

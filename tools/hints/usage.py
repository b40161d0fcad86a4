"""Pages of help, and what is said of words that are no call: which one is wrong, and the options of the command."""

from typing import List, Optional, Sequence

from fleetplan.texts import typed
from fleetplan.version import proving_kit, version
from fleetplan.words import COMMANDS, OPTIONS, USAGE, Call
from hints.saying import WHOLE, Hint, Where, put

SECTION = "the-words-of-a-call"
# The letters that the longest option has, with its placeholder.
WIDTH = 21
FILES = (
    ("stations.csv", "stations: code, extra minutes of a turn there, maintenance yes or no, room at night if limited"),
    ("fleets.csv", "fleets: name, aircraft, minutes of a turn"),
    ("legs.csv", "the flights of a day, or of some days (--period): from, departure, to, arrival, in UTC"),
    ("costs.csv", "which fleet may fly which flight, and what it costs"),
    ("throughs.csv", "pairs of flights that one aircraft should fly in turn; an empty file will do"),
    ("windows.csv", "by how many minutes legs may depart later or earlier, and at what price: read with --windows"),
    ("optional.csv", "which legs may be left out, and at what price: read with --optional"),
    ("tails.csv", "the aircraft of fleets by name, the nights left to each until maintenance, and where it is, if told: due reads it"),
    ("settings.csv", "words that a call over the folder needn't say, as period,7 below word,value"),
    ("plan.csv", "a fleet for each flight: solve writes it"),
    ("proof.txt", "why no legal plan costs less: solve writes it"),
    ("rotation.csv", "in what order each fleet flies its flights: solve writes it"),
)
# The names of the environment that a call reads.
VARIABLES = (
    ("FLEETPLAN_HINTS", "0 is silence on standard error, 1 all hints also where that is no terminal, json each fault as an object of JSON"),
    ("FLEETPLAN_BUILD", "1 has the program proved and built here, whatever release there is"),
)
HELPERS = (
    ("./fleetplan judge examples/two-legs --day-start 00:00", "judges the plan of an example"),
    ("tools/preview solve examples/split --day-start 00:00", "answers before the proofs are done, on a copy"),
    ("tools/draw DIR", "draws what solve wrote as DIR/plan.html"),
)


def answered(command: str, words: Sequence[str]) -> Optional[int]:
    """Answers calls for help and for the version on standard output, and says what is wrong with words that are no call. It returns the
    status, or None of a call, of which nothing is said."""
    call = Call(words)
    if call.wants_help:
        print(help_for(command, call), end="", flush=True)
        return 0
    if not call.faults:
        return None
    print(USAGE, flush=True)
    hint = Hint(2)
    explain(hint, command, call)
    put(hint)
    return 2


def help_for(command: str, call: Call) -> str:
    """Returns what is shown where a call asks for help or for the version."""
    if call.wants_version:
        return f"{version()}\n"
    hint, asked = Hint(), call.command or next((it for it in call.all[1:2] if it in COMMANDS), None)
    if asked:
        show_command(hint, command, asked)
        hint.see(SECTION)
    else:
        show_page(hint, command)
    return f"{USAGE}\n{hint.told(WHOLE)}"


def explain(hint: Hint, command: str, call: Call) -> None:
    """Says what is wrong with a call, and what the command takes."""
    if any("\udc80" <= letter <= "\udcff" for word in call.all for letter in word):
        hint.say("a word of this call isn't UTF-8")
        return
    for fault in call.faults:
        hint.fault(fault.text, Where(found=fault.found, wanted=fault.wanted))
        if fault.mended and len(call.faults) == 1 and is_good(fault.mended):
            hint.mend([command, *fault.mended])
    hint.brief(f"{typed([command, *([call.command] if call.command else []), '--help'])} says what there is")
    if call.command:
        show_command(hint, command, call.command)
    else:
        show_commands(hint, command)
    hint.see(SECTION)


def is_good(words: List[str]) -> bool:
    """Returns whether these words are a call in which nothing is wrong."""
    call = Call(words)
    return not call.wants_help and not call.faults


def show_command(hint: Hint, command: str, name: str) -> None:
    """Shows a command with its words and options."""
    own = COMMANDS[name]
    hint.add(f"{typed([command])} {' '.join([name, *own.names])} {own.does}.")
    for word, (form, means, _) in own.words.items():
        hint.show(f"{word:<{WIDTH}} {means}: {form.form}")
    for option in own.options:
        placeholder, _, default, means = OPTIONS[option]
        without = f" (without it {default})" if default else ""
        hint.show(f"{f'--{option} {placeholder}':<{WIDTH}} {means}{without}")


def show_commands(hint: Hint, command: str) -> None:
    """Shows all commands with what they do."""
    hint.add("The commands:")
    for name, own in COMMANDS.items():
        hint.show(f"{typed([command])} {' '.join([name, *own.names]):<22} {own.does}")


def show_page(hint: Hint, command: str) -> None:
    """Shows what there is to know before a first call."""
    hint.say("an airline's fleet assignment and maintenance routing, proved from bytes to bytes.")
    show_commands(hint, command)
    hint.say("The options, with what they are where they aren't given:")
    for option, (placeholder, _, default, means) in OPTIONS.items():
        of = ", ".join(it for it in COMMANDS if option in COMMANDS[it].options)
        without = f" ({default})" if default else ""
        hint.show(f"{f'--{option} {placeholder}':<{WIDTH}} {means}{without}; of {of}")
    hint.say("The files in the folder DIR:")
    for name, holds in FILES:
        hint.show(f"{name:<14} {holds}")
    hint.say("The environment:")
    for name, does in VARIABLES:
        hint.show(f"{name:<16} {does}")
    hint.say("A first call, and two helpers beside it:")
    for words, does in HELPERS:
        hint.show(f"{words:<54} {does}")
    kit = proving_kit()
    if kit:
        hint.say(f"Proved with {kit}.")
    hint.say("Read on in README.md, and in docs/formats.md of each file, word and refusal.")

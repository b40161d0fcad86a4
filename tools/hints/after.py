"""Which hint belongs to an answer."""

import os
from typing import List, Sequence

from fleetplan.program import PROGRAM, Runner
from fleetplan.texts import quietly
from fleetplan.words import Call
from hints.saying import JSON, WHOLE, Hint, mode

# What one more run of the program may take.
SECONDS = 5
# What an answer of `tails` or `due` may hold that is looked through.
MOST_LETTERS = 1 << 22


def hint_for(status: str, said: str, command: str, words: Sequence[str]) -> Hint:
    """Returns the hint for a status, what was said, and the words. What fails on the way leaves what was found before."""
    hint, call = Hint(int(status) if status.isdigit() else None), Call(words)
    try:
        tell(hint, status, said, command, call)
    except (Exception, MemoryError, RecursionError):  # pylint: disable=broad-except
        pass
    return hint


def tell(hint: Hint, status: str, said: str, command: str, call: Call) -> None:
    # Each module is loaded where it speaks alone, since most answers need none.
    """Says what belongs to an answer."""
    if status == "building":
        tell_preview(hint, command, call)
    elif status == "1":
        tell_unbuilt(hint, command, call)
    elif not call.words or call.faults:
        return
    elif status == "7":
        from hints import files

        files.explain(hint, command, call)
    elif status == "8":
        hint.say("memory ran out: the program wants more than this machine, or a limit of the call (ulimit), gives it")
        hint.say("fewer pairs in costs.csv, or a part of the schedule alone, want less")
    elif status in ("6", "9"):
        tell_refusal(hint, command, call, said or once_more(call))
    elif status == "4":
        from hints import infeasible

        infeasible.explain(hint, command, call)
    elif status == "10":
        from hints import unplaced

        unplaced.explain(hint, call, said or once_more(call))
    elif status == "11":
        from hints import other_sizes

        other_sizes.tell_fallen(hint, command, call, said or once_more(call))
    elif status in ("0", "3", "5"):
        tell_answer(hint, status, said, command, call)


def once_more(call: Call) -> str:
    """Returns what the program prints for the same words: where it refused something, or writes nothing, a further run changes
    nothing."""
    return Runner(PROGRAM, SECONDS).run(*call.all).text[:MOST_LETTERS]


def tell_refusal(hint: Hint, command: str, call: Call, said: str) -> None:
    """Says what a line of a refusal means, whichever it is."""
    from hints import other_sizes, refused_plans, refused_proofs, refused_tables

    line = said.strip()
    other_sizes.tell_unknown(hint, command, call, line)
    refused_tables.explain(hint, call.folder, line, call.value("period"))
    refused_plans.explain(hint, command, call, line)
    refused_proofs.explain(hint, command, call, line)


def tell_answer(hint: Hint, status: str, said: str, command: str, call: Call) -> None:
    """Says of a plan what stayed open, and of its rotations what helps."""
    if status != "0":
        from hints import open_ends

        quietly(open_ends.explain, hint, command, call)
    if call.command in ("solve", "make", "tails", "due"):
        from fleetplan.rotations import ends_of
        from hints import rotations

        is_summary = call.command in ("tails", "due")
        answers = rotations.of_summary(said or once_more(call)) if is_summary else ends_of(call.folder)
        rotations.explain(hint, command, call, answers)


def tell_preview(hint: Hint, command: str, call: Call) -> None:
    """Says, before the program is built, how to have a look until then. In JSON that is told where it wasn't built."""
    if mode() == JSON:
        return
    hint.say("the program isn't built yet, or is of other sources. For an answer before it is, not proved, on a copy of the folder,")
    hint.say("call in another terminal:")
    hint.mend(previewed(command, call))


def tell_unbuilt(hint: Hint, command: str, call: Call) -> None:
    """Says, after the program wasn't built, how to have a look all the same. Where all is said that stands there before."""
    if mode() != WHOLE:
        hint.say("there is no answer, for the program was not built. For an answer without proofs, on a copy of the folder:")
        hint.mend(previewed(command, call))


def previewed(command: str, call: Call) -> List[str]:
    """Returns the words that answer without proofs."""
    return [os.path.join(os.path.dirname(command), "tools", "preview"), *call.all]

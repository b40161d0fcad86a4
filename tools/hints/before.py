"""What is said before the program runs: the words that a folder's settings add, and what the call leaves aside in it."""

from typing import List, Sequence

from fleetplan.errors import Unread
from fleetplan.settings import Settings, doubts
from fleetplan.texts import quietly, typed
from fleetplan.words import Call
from hints.saying import Hint, Where, put


def settled(command: str, words: Sequence[str]) -> List[str]:
    """Returns the words that the folder's settings add to a call, and says them, and what else it leaves aside; or raises Unread where its
    settings.csv isn't of its form, and says so too."""
    call = Call(words)
    try:
        settings = Settings(call.folder) if call.own.needs_tables else None
    except Unread as fault:
        hint = Hint(fault.status)
        hint.fault(str(fault), Where(fault.file, fault.record))
        hint.see("the-settings-of-a-folder")
        put(hint)
        raise
    if settings is None:
        return []
    added = settings.added(call)
    whole = with_added(words, added)
    if added:
        hint = Hint()
        hint.fault(f"{settings.path} adds {typed(added)}", Where(settings.path))
        hint.notes[0].call = typed([command, *whole])
        put(hint)
    for text in quietly(doubts, Call(whole), settings) or []:
        hint = Hint()
        hint.fault(text)
        put(hint)
    return added


def with_added(words: Sequence[str], added: Sequence[str]) -> List[str]:
    """Returns the words of a call with those that are added, behind the command."""
    return [*words[:1], *added, *words[1:]]

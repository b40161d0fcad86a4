"""How each tool ends: its page of help, a pipe whose reader goes, what can't be written, and Ctrl-C."""

import contextlib
import os
import signal
import sys
from typing import Callable, List, NoReturn, Optional

from fleetplan.texts import tell

HELP = ("-h", "--help")
# The statuses where what is printed can't be written, and where memory runs out: as the program's own.
UNWRITTEN, NO_MEMORY = 1, 8


def run(main: Callable[[List[str]], int], page: Optional[str]) -> NoReturn:
    """Calls a tool with its words, and ends with its status. Where they ask for help its page, if it has one here, stands on standard output
    instead. Where the reader of a pipe has gone, and at a Ctrl-C, it ends by the signal, silently."""
    signal.signal(signal.SIGPIPE, signal.SIG_DFL)
    if signal.getsignal(signal.SIGINT) == signal.SIG_DFL:
        signal.signal(signal.SIGINT, signal.default_int_handler)
    words, name = sys.argv[1:], os.path.basename(sys.argv[0])
    try:
        if page and asks_for_help(words):
            print(page.strip())
            ended = 0
        else:
            ended = main(words)
        sys.stdout.flush()
    except KeyboardInterrupt:
        signal.signal(signal.SIGINT, signal.SIG_DFL)
        os.kill(os.getpid(), signal.SIGINT)
    except MemoryError:
        tell(f"{name}: memory ran out")
        ended = NO_MEMORY
    except OSError as error:
        tell(f"{name}: {error.filename or 'the output'}: {error.strerror}")
        ended = UNWRITTEN
    with contextlib.suppress(OSError):
        sys.stderr.flush()
    # What couldn't be written is not tried once more.
    os._exit(ended)


def asks_for_help(words: List[str]) -> bool:
    """Returns whether a word before `--` asks for help."""
    return any(it in HELP for it in words[: words.index("--") if "--" in words else None])

"""What each tool begins with, before it imports anything of its own.

It ends in one line where Python is too old, where memory runs out, and where the tool itself has a fault; and silently at a Ctrl-C. What the
caller's PYTHONPATH names doesn't come in the place of the tool's own modules. The grammar here is that of older Pythons."""

import os
import signal
import site
import sys
from types import TracebackType
from typing import Callable, List, NoReturn, Optional, Type

LEAST = (3, 8)


def name():
    # type: () -> str
    """Returns how the tool is called."""
    return os.path.basename(sys.argv[0])


def tell(text):
    # type: (str) -> None
    """Tells one line of letters that any terminal can show."""
    if sys.stderr is not None:
        sys.stderr.write("%s: %s\n" % (name(), text.encode("unicode_escape").decode("ascii")))


def end_in_one_line(kind, error, place):
    # type: (Type[BaseException], BaseException, Optional[TracebackType]) -> None
    """Tells an exception that nothing else has caught. A Ctrl-C ends the process by its signal."""
    if issubclass(kind, KeyboardInterrupt):
        signal.signal(signal.SIGINT, signal.SIG_DFL)
        os.kill(os.getpid(), signal.SIGINT)
    if issubclass(kind, MemoryError):
        tell("memory ran out")
        return
    while place and place.tb_next:
        place = place.tb_next
    where = "%s:%d" % (os.path.basename(place.tb_frame.f_code.co_filename), place.tb_lineno) if place else "no place"
    tell("this is a fault of the tool: %s at %s: %s" % (kind.__name__, where, error))


def want_python():
    # type: () -> None
    """Ends where Python is older than the tools want."""
    if sys.version_info[:2] < LEAST:
        tell("Python %d.%d or later is wanted, and this is %d.%d" % (LEAST + sys.version_info[:2]))
        sys.exit(1)


def use_own_modules():
    # type: () -> None
    """Takes away what PYTHONPATH adds behind the tool's own folder. Where Python finds its packages anyway they stay."""
    own = os.path.dirname(os.path.realpath(__file__))
    added = [os.path.realpath(it) for it in os.environ.get("PYTHONPATH", "").split(os.pathsep) if it]
    kept = [own] + [os.path.realpath(it) for it in site.getsitepackages()]
    sys.path[1:] = [it for it in sys.path[1:] if os.path.realpath(it) not in added or os.path.realpath(it) in kept]


def open_streams():
    # type: () -> None
    """Has a stream that is closed be one that can't be written, so that no file comes in its place and the fault is told."""
    for number, stream in ((0, "stdin"), (1, "stdout"), (2, "stderr")):
        try:
            os.fstat(number)
        except OSError:
            os.open(os.devnull, os.O_RDONLY)
            if number:
                setattr(sys, stream, open(number, "w", encoding="utf-8", errors="backslashreplace", closefd=False))


def is_run():
    # type: () -> bool
    """Returns whether a tool is what is run, and not a module of another program."""
    main = getattr(sys.modules.get("__main__"), "__file__", None)
    return main is None or os.path.realpath(main).startswith(os.path.dirname(os.path.realpath(__file__)) + os.sep)


def run(main, page):
    # type: (Callable[[List[str]], int], Optional[str]) -> NoReturn
    """Calls a tool with its words, and ends with its status: fleetplan.tool says how."""
    from fleetplan.tool import run as run_tool

    run_tool(main, page)


want_python()
# Who loads a tool as a module has handlers and paths of his own.
if is_run():
    sys.excepthook = end_in_one_line
    use_own_modules()
    open_streams()
    # Until the tool hears of it, a Ctrl-C ends it at once.
    if signal.getsignal(signal.SIGINT) == signal.default_int_handler:
        signal.signal(signal.SIGINT, signal.SIG_DFL)

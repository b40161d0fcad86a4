"""Calls of tools/ssim within this process, and what stands in folders."""

import contextlib
import importlib.machinery
import io
from pathlib import Path
from types import ModuleType
from typing import Any, List, Sequence, Tuple

TOP = Path(__file__).resolve().parent.parent.parent
EXAMPLE = TOP / "examples" / "ssim"
# What stands in a folder: the bytes of each file by its name, and None for a folder; None of a folder that isn't there.
Standing = Any


def load_tool(name: str) -> ModuleType:
    """Returns a tool as a module."""
    loader = importlib.machinery.SourceFileLoader(name, str(TOP / "tools" / name))
    module = ModuleType(name)
    loader.exec_module(module)
    return module


tool = load_tool("ssim")


def call(*words: object) -> Tuple[int, str]:
    """Calls the tool as `asked` does. A plan is written whether the fleets can fly it or not."""
    return asked(*words, *(["--anyway"] if words[:1] == ("plan",) else []))


def asked(*words: object) -> Tuple[int, str]:
    """Calls the tool, and returns its status and what stood on standard error."""
    return heard(tool, words)


def heard(of: ModuleType, words: Sequence[object]) -> Tuple[int, str]:
    """Calls any tool, and returns the same."""
    told = io.StringIO()
    with contextlib.redirect_stderr(told):
        status = of.main([str(it) for it in words])
    return status, told.getvalue()


def standing(folder: Path) -> Standing:
    """Returns what stands in a folder: the bytes of each file by its name, and None for a folder."""
    if not folder.exists():
        return None
    return {it.name: it.read_bytes() if it.is_file() else None for it in folder.iterdir()}


def records(folder: Path, name: str) -> List[str]:
    """Returns a table's records below its header, each a text."""
    return (folder / name).read_text(encoding="ascii").splitlines()[1:]

"""Folders and commands that stand in for the repository and for rt."""

import os
import subprocess
from pathlib import Path
from typing import Dict, List, NamedTuple

TOP = Path(__file__).resolve().parent.parent.parent
SECONDS = 60


class Ended(NamedTuple):
    """What became of a command."""

    status: int
    lines: List[str]
    told: str


def lay(folder: Path, texts: Dict[str, str]) -> None:
    """Writes files below a folder."""
    for name, text in texts.items():
        file = folder / name
        file.parent.mkdir(parents=True, exist_ok=True)
        file.write_text(text, encoding="utf-8")


def lay_command(file: Path, text: str) -> None:
    """Writes a command."""
    file.parent.mkdir(parents=True, exist_ok=True)
    file.write_text(text, encoding="utf-8")
    file.chmod(0o755)


def run(folder: Path, *words: str, **names: str) -> Ended:
    """Runs a command in a folder. `names` are set in its environment."""
    environment = {**os.environ, **names}
    made = subprocess.run(
        words, cwd=folder, env=environment, stdout=subprocess.PIPE, stderr=subprocess.PIPE, encoding="utf-8", errors="replace", timeout=SECONDS
    )
    return Ended(made.returncode, made.stdout.splitlines(), made.stderr)

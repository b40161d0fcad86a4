"""Scripts by which bash, zsh and fish complete the words of a call."""

from typing import Dict, Iterator, List, Tuple

from fleetplan.forms import Choice
from fleetplan.words import COMMANDS, OPTIONS, VERSION

# What stands in the place of a command beside those of the program.
OTHERS = ("help", "--help", VERSION[0])
# Of each option whose value is one of a few words, these.
CHOICES: Dict[str, Tuple[str, ...]] = {name: option.form.words for name, option in OPTIONS.items() if isinstance(option.form, Choice)}


def options_of(command: str) -> List[str]:
    """Returns the options of a command, with that for its help."""
    return [*(f"--{it}" for it in COMMANDS[command].options), "--help"]


def quoted(text: str) -> str:
    """Returns a text between the quotes of a shell."""
    return "'" + text.replace("'", "'\\''") + "'"


def bash() -> Iterator[str]:
    """Yields the lines for bash."""
    valued = "|".join(f"--{name}" for name, option in OPTIONS.items() if option.form and name not in CHOICES)
    yield "# Completes ./fleetplan in bash. Made by `tools/completion bash`."
    yield "_fleetplan() {"
    yield "    local current=${COMP_WORDS[COMP_CWORD]} options="
    yield "    COMPREPLY=()"
    yield "    if [ \"$COMP_CWORD\" = 1 ]; then"
    yield f"        COMPREPLY=($(compgen -W '{' '.join([*COMMANDS, *OTHERS])}' -- \"$current\"))"
    yield "        return"
    yield "    fi"
    yield "    case ${COMP_WORDS[COMP_CWORD - 1]} in"
    yield f"        {valued}) return ;;"
    for name, words in CHOICES.items():
        yield f"        --{name}) COMPREPLY=($(compgen -W '{' '.join(words)}' -- \"$current\")); return ;;"
    yield "    esac"
    yield "    case ${COMP_WORDS[1]} in"
    for command in COMMANDS:
        yield f"        {command}) options='{' '.join(options_of(command))}' ;;"
    yield f"        help) COMPREPLY=($(compgen -W '{' '.join(COMMANDS)}' -- \"$current\")); return ;;"
    yield "    esac"
    yield "    case $current in"
    yield "        -*) COMPREPLY=($(compgen -W \"$options\" -- \"$current\")) ;;"
    yield "        *) compopt -o filenames; mapfile -t COMPREPLY < <(compgen -d -- \"$current\") ;;"
    yield "    esac"
    yield "}"
    yield "complete -F _fleetplan fleetplan"


def zsh() -> Iterator[str]:
    """Yields the lines for zsh."""
    yield "#compdef fleetplan"
    yield "# Completes ./fleetplan in zsh. Made by `tools/completion zsh`."
    yield "_fleetplan() {"
    yield "    local -a commands=("
    for name, own in COMMANDS.items():
        yield f"        {quoted(f'{name}:{own.does}')}"
    yield "    )"
    yield "    (( CURRENT > 2 )) || { _describe command commands; return }"
    yield "    case $words[2] in"
    for name, own in COMMANDS.items():
        words = [quoted("2:DIR:_files -/"), *(quoted(f"{at}:{word}:") for at, word in enumerate(own.words, 3))]
        words += [quoted(zsh_option(it)) for it in own.options]
        yield f"        {name}) _arguments 1:command: {' '.join(words)} ;;"
    yield "    esac"
    yield "}"
    yield "compdef _fleetplan fleetplan"


def zsh_option(name: str) -> str:
    """Returns what tells zsh of an option."""
    option = OPTIONS[name]
    means = option.means.replace("[", "\\[").replace("]", "\\]").replace(":", "\\:")
    if option.form is None:
        return f"--{name}[{means}]"
    words = f"({' '.join(CHOICES[name])})" if name in CHOICES else ""
    return f"--{name}=[{means}]:{option.placeholder.replace(':', chr(92) + ':')}:{words}"


def fish() -> Iterator[str]:
    """Yields the lines for fish."""
    yield "# Completes ./fleetplan in fish. Made by `tools/completion fish`."
    yield "complete -c fleetplan -f"
    for name, own in COMMANDS.items():
        yield f"complete -c fleetplan -n __fish_use_subcommand -a {name} -d {quoted(own.does)}"
    yield "complete -c fleetplan -n 'not __fish_use_subcommand' -a '(__fish_complete_directories)'"
    for name, option in OPTIONS.items():
        of = " ".join(it for it in COMMANDS if name in COMMANDS[it].options)
        value = "" if option.form is None else " -x"
        value += f" -a {quoted(' '.join(CHOICES[name]))}" if name in CHOICES else ""
        yield f"complete -c fleetplan -n '__fish_seen_subcommand_from {of}' -l {name}{value} -d {quoted(option.means)}"


SHELLS = {"bash": bash, "zsh": zsh, "fish": fish}

"""Words that are no line of wsc: what is wrong with them."""

from __future__ import annotations

import difflib
import pathlib
from collections.abc import Sequence

# The options of each command, as far as the program's usage line names it.
OPTIONS: dict[str, tuple[str, ...]] = {
    "run": ("workers", "budget", "memory", "stats"), "plain": ("turns", "memory", "stats"), "format": (),
    "compile": (), "check": (), "exec": ("workers", "budget", "memory", "stats"), "list": (),
    "trace": ("budget",), "replay": (), "gen": (), "bench": ("workers", "budget"),
    "multi": ("workers", "budget", "memory", "stats"), "decouple": ("budget", "memory", "stats"),
    "grid": ("elements", "waves", "budget", "memory", "stats"),
}
FLAGS = ("memory", "stats")
READS_NONE = ("gen", "bench")
MOST = 4000000
RANGES = {"workers": (1, 8), "budget": (0, MOST), "turns": (0, MOST), "elements": (1, 64), "waves": (1, 1000000)}
BRIEF = {("trace", "budget"): (0, 100000), ("grid", "budget"): (0, 100000)}
NO_HELP = "the program itself has no --help: that is for the script in front of it; `man -l docs/wsc.1` has all"


def like(word: str, words: Sequence[str]) -> str:
    """A word of these that is much like this one, as a question."""
    near = difflib.get_close_matches(word, words, 1, 0.6)
    return f"; perhaps `{near[0]}`?" if near else ""


def is_file(word: str) -> bool:
    return "/" in word or "." in word or pathlib.Path(word).exists()


def from_file(command: str, word: str) -> str:
    return f"`{word}` looks like a file: the program opens none, it reads standard input: wsc {command} < {word}"


def of_usage(words: list[str], usage: str) -> list[str]:
    """What is wrong with the words; the usage line tells which commands there are."""
    told = usage.split(" ")
    commands = told[2].split("|") if len(told) > 2 else list(OPTIONS)
    if not words:
        return ["a command is missing: it is the first word"]
    command, rest = words[0], words[1:]
    if any(word in ("--help", "-h", "help", "--version") for word in words):
        return [NO_HELP]
    if command.startswith("-"):
        return ["the command is the first word; options stand behind it"]
    if command not in commands:
        return [from_file("run", command) if is_file(command)
                else f"there is no command `{command}`{like(command, commands)}"]
    said: list[str] = []
    numbers: list[str] = []
    seen: set[str] = set()
    while rest:
        word, rest = rest[0], rest[1:]
        if not word.startswith("-"):
            numbers.append(word)
            continue
        name, mark, told_value = word.removeprefix("--").partition("=")
        value: str | None = told_value
        if not mark and name in RANGES:
            value, rest = (rest[0], rest[1:]) if rest else (None, rest)
        said += of_option(command, word, name, value, seen)
        seen.add(name)
    return said + of_numbers(command, numbers) or ["these arguments are no command line of wsc"]


def of_option(command: str, word: str, name: str, value: str | None, seen: set[str]) -> list[str]:
    """What is wrong with an option."""
    if name not in RANGES and name not in FLAGS:
        known = [f"--{name}" for name in (*RANGES, *FLAGS)]
        return [f"there is no option `{word}`{like(word.partition('=')[0], known)}"]
    if name not in OPTIONS[command]:
        have = [other for other in OPTIONS if name in OPTIONS[other]]
        return [f"`{command}` has no option --{name}; {', '.join(have)} {'have' if have[1:] else 'has'} it"]
    said = [f"--{name} stands twice"] if name in seen else []
    if name in FLAGS:
        return said + ([f"--{name} has no value"] if value else [])
    low, high = BRIEF.get((command, name), RANGES[name])
    if value is None:
        return said + [f"behind --{name} stands a number from {low} to {high}"]
    fits = value.isascii() and value.isdigit() and low <= int(value) <= high
    return said + ([] if fits else [f"--{name}: `{value}` isn't a number from {low} to {high}"])


def of_numbers(command: str, words: list[str]) -> list[str]:
    """What is wrong with the words that are no options."""
    if command not in READS_NONE:
        return [from_file(command, word) if is_file(word) else f"`{command}` takes no word `{word}`"
                for word in words]
    if len(words) != 1:
        return [f"behind `{command}` stands one number, that of the generated job"]
    fits = words[0].isascii() and words[0].isdigit() and int(words[0]) <= 1000000
    return [] if fits else [f"`{words[0]}` isn't a number from 0 to 1000000"]

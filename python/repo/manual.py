"""Makes of the manual page, docs/wsc.1, what the wrapper and the shells know of commands and options.

    python/run repo.manual            writes scripts/launcher/help.txt, scripts/launcher/words.bash and scripts/launcher/complete/
    python/run repo.manual --check    says which of them differ from what the manual page says

Whoever changes a command or an option changes the manual page, and calls this.
"""

import re
import sys
import textwrap
from collections.abc import Iterator, Sequence

from wavescalar.programs import ROOT

HERE = ROOT / "scripts" / "launcher"
MANUAL = ROOT / "docs" / "wsc.1"
QUOTED = {"Ql": "`{}`", "Sq": "`{}`", "Dq": '"{}"', "Pq": "({})", "Op": "[{}]"}
PLAIN = ("Cm", "Ar", "Em", "Sy", "Pa", "Ev", "Nm")
# Commands that the wrapper hands to a program of their own.
BESIDE = {"stream": "wss", "optimize": "wso"}
# Columns of a screen.
WIDE = 79
# A line of the page: its macro and its words; for text no macro, and the text as one word.
Line = tuple[str, list[str]]


def parts(text: str) -> list[str]:
    """The words of a macro's line; what stands between quotes is one."""
    return [quoted or plain for quoted, plain in re.findall(r'"([^"]*)"|(\S+)', text)]


def inline(words: Sequence[str]) -> str:
    """The text of a macro's line."""
    out, closing, glued, flag = "", "", False, False
    for word in words:
        if word in QUOTED:
            opening, _, end = QUOTED[word].partition("{}")
            out, closing = f"{out}{' ' if out and not glued else ''}{opening}", end + closing
            glued = True
        elif word == "Ns":
            glued = True
        elif word == "Fl":
            flag = True
        elif word not in PLAIN:
            if word in ".,;:)" and closing:
                out, closing = out + closing, ""
            glue = glued or not out or word in ".,;:)"
            out += ("" if glue else " ") + ("-" if flag else "") + word
            glued = flag = False
    return out + closing


def lines_of(text: str) -> Iterator[Line]:
    """The lines of a text of the page."""
    for line in text.splitlines():
        macro, _, rest = line[1:].partition(" ") if line.startswith(".") else ("", "", "")
        yield macro, parts(rest) if macro else [line.replace("\\-", "-")]


def section(name: str) -> list[Line]:
    """The lines of a section."""
    found = re.search(rf"^\.Sh {name}\n(.*?)(?=^\.Sh |\Z)", MANUAL.read_text(), re.S | re.M)
    assert found, f"the manual page has no section {name}"
    return list(lines_of(found[1]))


def filled(lines: Sequence[Line]) -> str:
    """The text of lines."""
    told = (inline([macro, *rest]) if macro else rest[0] for macro, rest in lines if macro not in ("Pp", "Bl", "El"))
    return re.sub(r" ([.,;:)])(?= |$)", r"\1", " ".join(told))


def items(name: str) -> list[tuple[str, list[str], str]]:
    """The items of the lists of a section: the heading they stand under, their words, their text."""
    heading, inside = "", False
    found: list[tuple[str, list[str], list[Line]]] = []
    for macro, rest in section(name):
        heading = " ".join(rest) if macro == "Ss" else heading
        inside = macro != "El" and (inside or macro == "It")
        if macro == "It":
            found.append((heading, rest, []))
        elif inside:
            found[-1][2].append((macro, rest))
    return [(heading, words, filled(lines)) for heading, words, lines in found]


def synopsis() -> dict[str, tuple[list[str], bool]]:
    """The options of each command, in the order of the page, and whether it takes a file."""
    found: dict[str, tuple[list[str], bool]] = {}
    for entry in "\n".join(macro + " " + " ".join(rest) for macro, rest in section("SYNOPSIS")).split("Nm \n"):
        lines = entry.splitlines()
        if lines and lines[0].startswith("Cm ") and lines[0] != "Cm help":
            names = [word for word in lines[0].split()[1:] if word not in ("|", "Ar", "NUMBER")]
            options = [line.split()[2].lstrip("-") for line in lines if line.startswith("Op Fl")]
            found |= {name: (options, "Op Ar FILE" in lines) for name in names}
    return found


class Page:
    """What the manual page says of commands and options."""

    def __init__(self) -> None:
        self.lines = synopsis()
        self.commands = [(heading, words[1], text) for heading, words, text in items("COMMANDS")]
        told = items("OPTIONS")
        self.options = {words[1].lstrip("-"): (" ".join(words[3:]), text) for _, words, text in told}
        self.statuses = [(words[0], text) for _, words, text in items("EXIT STATUS")]

    def order(self) -> list[str]:
        """The commands, as the page has them."""
        return [name for _, name, _ in self.commands]

    def shown(self, option: str) -> str:
        """An option with its value, as a line has them."""
        value = self.options[option][0]
        return f"--{option}" + (f" {value}" if value else "")

    def usage(self, name: str) -> str:
        """The line of a command."""
        options = [f"[{self.shown(option)}]" for option in self.lines[name][0]]
        words = [*options, "[FILE]"] if self.lines[name][1] else ["NUMBER", *options]
        return " ".join(["usage: wsc", name, *(word.replace(" ", "\0") for word in words)])

    def text_of(self, option: str, name: str) -> str:
        """What is said of an option of a command, without what is said of other commands alone."""
        text = re.sub(r"^For \w+: (\w)", lambda found: found[1].upper(), self.options[option][1])
        low, high = self.ranges().get((name, option), ("", ""))
        told = []
        for sentence in re.split(r"(?<=\.) ", text):
            part = next((part for part in sentence.split(";") if re.search(rf"\b{name}\b", part)), "")
            usual = re.search(r"by default (\d+)", part)
            if ";" in sentence and usual:
                sentence = f"From {low} to {high}, by default {usual[1]}."
            told.append(sentence)
        return " ".join(told)

    def ranges(self) -> dict[tuple[str, str], tuple[str, str]]:
        """The least and the greatest number of each option of each command."""
        found: dict[tuple[str, str], tuple[str, str]] = {}
        for option, (value, text) in self.options.items():
            if not value:
                continue
            for part in text.split(";"):
                for low, high in re.findall(r"from (\d+) to (\d+)", part):
                    having = [name for name in self.order() if option in self.lines[name][0]]
                    named = [name for name in having if re.search(rf"\b{name}\b", part)]
                    found |= {(name, option): (low, high) for name in named or having}
        gen = next(text for _, name, text in self.commands if name == "gen")
        (low, high), = re.findall(r"from (\d+) to (\d+)", gen)
        return found | {(name, "NUMBER"): (low, high) for name in self.order() if not self.lines[name][1]}


def brief(text: str) -> str:
    """The first clause."""
    return re.split(r"[.:] |[.:]$|, as", text)[0]


def short(text: str) -> str:
    """It in a few words, for a completion."""
    text = brief(re.sub(r"^For \w+: (\w)", lambda found: found[1].upper(), text))
    cut = re.search(r".{25,}?(?=, | \()", text)
    return cut[0] if cut else text


def help_of(page: Page, name: str, text: str) -> list[str]:
    """The screen of a command."""
    out = textwrap.wrap(page.usage(name), WIDE, subsequent_indent=" " * 11)
    out = [line.replace("\0", " ") for line in out] + ["", *textwrap.wrap(text, WIDE), ""]
    rows = [(page.shown(option), page.text_of(option, name)) for option in page.lines[name][0]]
    if page.lines[name][1]:
        rows.append(("FILE", "The text; standard input without it, or where it is `-`."))
    else:
        rows.insert(0, ("NUMBER", "From {} to {}.".format(*page.ranges()[name, "NUMBER"])))
    for shown, told in rows:
        out += textwrap.wrap(told, WIDE, initial_indent=f"  {shown:<15}", subsequent_indent=" " * 17)
    return out


def help_of_all(page: Page) -> list[str]:
    """The screen of all commands."""
    out = ["usage: wsc COMMAND [OPTIONS] [FILE]", "       wsc COMMAND --help | wsc help COMMAND | wsc --version", ""]
    told = filled(section("NAME")[1:]).removeprefix("Nd ")
    out += textwrap.wrap(told[0].upper() + told[1:] + ".", WIDE)
    heading = None
    for above, name, text in page.commands:
        out += ["", above] if above != heading else []
        heading = above
        out += textwrap.wrap(brief(text), WIDE, initial_indent=f"  {name:<10}", subsequent_indent=" " * 12)
    out += ["", "Exit status"]
    for status, text in page.statuses:
        out += textwrap.wrap(text, WIDE, initial_indent=f"  {status:<10}", subsequent_indent=" " * 12)
    return [*out, "", "man wsc has all of it; in the repository man -l docs/wsc.1"]


def help_text(page: Page) -> str:
    """scripts/launcher/help.txt: each screen below a line %NAME."""
    screens = [("wsc", help_of_all(page)), *((name, help_of(page, name, text)) for _, name, text in page.commands)]
    return "".join(f"%{name}\n" + "\n".join(lines) + "\n" for name, lines in screens)


def words_bash(page: Page) -> str:
    """scripts/launcher/words.bash: the tables of the wrapper."""
    options = "\n".join(f'    [{name}]="{" ".join(page.lines[name][0])}"' for name in page.order())
    ranges = "\n".join(f'    [{name}.{option}]="{low} {high}"' for (name, option), (low, high) in page.ranges().items())
    return f"""# Made of docs/wsc.1 by python/run repo.manual.
# shellcheck shell=bash disable=SC2034
commands=({' '.join(page.order())})
options=({' '.join(page.options)})
declare -A options_of=(
{options}
)
declare -A ranges_of=(
{ranges}
)
"""


def few(page: Page, option: str) -> Sequence[int]:
    """The values of an option that has few."""
    pairs = [pair for (_, other), pair in page.ranges().items() if other == option]
    return range(int(pairs[0][0]), int(pairs[0][1]) + 1) if pairs and int(pairs[0][1]) < 10 else ()


def complete_bash(page: Page) -> str:
    """The completion of bash."""
    cases = "\n".join(f'    {name}) words="{" ".join("--" + it for it in (*page.lines[name][0], "help"))}" ;;'
                      for name in page.order())
    valued = [option for option, (value, _) in page.options.items() if value]
    values = "\n".join(f'    --{option}) COMPREPLY=($(compgen -W "{" ".join(map(str, few(page, option)))}" -- "$word")); return ;;'
                       for option in valued)
    numbers = "|".join(name for name in page.order() if not page.lines[name][1])
    return f"""# Completion of wsc for bash. Made of docs/wsc.1 by python/run repo.manual.
# shellcheck shell=bash disable=SC2207
_wsc() {{
    local word=${{COMP_WORDS[COMP_CWORD]}} before=${{COMP_WORDS[COMP_CWORD - 1]}} words=
    local commands="{' '.join(page.order())}"
    COMPREPLY=()
    if [ "$COMP_CWORD" -eq 1 ]; then
        COMPREPLY=($(compgen -W "$commands help --help --version" -- "$word"))
        return
    fi
    case $before in
    help) COMPREPLY=($(compgen -W "$commands" -- "$word")); return ;;
{values}
    esac
    case ${{COMP_WORDS[1]}} in
{cases}
    esac
    if [[ $word == -* ]]; then
        COMPREPLY=($(compgen -W "$words" -- "$word"))
    elif [[ ${{COMP_WORDS[1]}} != @({numbers}|help) ]]; then
        COMPREPLY=($(compgen -f -- "$word"))
        compopt -o filenames 2>/dev/null
    fi
}}
complete -F _wsc wsc
"""


def zsh(text: str) -> str:
    """A text between quotes, in a list of zsh."""
    return text.replace("'", "'\\''").replace(":", "\\:").replace("[", "\\[").replace("]", "\\]")


def complete_zsh(page: Page) -> str:
    """The completion of zsh."""
    told = "\n".join(f"        '{name}:{zsh(short(text))}'" for _, name, text in page.commands)
    specs = []
    for option, (value, text) in page.options.items():
        action = f":number:({' '.join(map(str, few(page, option)))})" if few(page, option) else ":number: "
        specs.append(f"        {option} '--{option}[{zsh(short(text))}]{action if value else ''}'")
    cases = "\n".join(f"    {name}) names=({' '.join(page.lines[name][0])}) rest='"
                      + ("*:file:_files" if page.lines[name][1] else ":number: ") + "' ;;" for name in page.order())
    joined = "\n".join(specs)
    return f"""#compdef wsc
# Completion of wsc for zsh. Made of docs/wsc.1 by python/run repo.manual.
_wsc() {{
    local -a commands names own
    local -A specs
    local name rest
    commands=(
{told}
        'help:a screen of help'
    )
    specs=(
{joined}
    )
    if ((CURRENT == 2)); then
        _describe command commands
        compadd -- --help --version
        return
    fi
    case $words[2] in
{cases}
    help) _describe command commands; return ;;
    *) return 1 ;;
    esac
    for name in $names; do own+=("$specs[$name]"); done
    shift words
    ((CURRENT--))
    _arguments -S $own '(- *)--help[a screen of help]' "$rest"
}}
_wsc "$@"
"""


def quoted(text: str) -> str:
    """A text as one word of fish."""
    return "'" + text.replace("\\", "\\\\").replace("'", "\\'") + "'"


def complete_fish(page: Page) -> str:
    """The completion of fish."""
    out = ["# Completion of wsc for fish. Made of docs/wsc.1 by python/run repo.manual."]
    for _, name, text in page.commands:
        out.append(f"complete -c wsc -n __fish_use_subcommand -f -a {name} -d {quoted(short(text))}")
    out.append("complete -c wsc -n __fish_use_subcommand -f -a help -d 'a screen of help'")
    out.append(f"complete -c wsc -n '__fish_seen_subcommand_from help' -f -a '{' '.join(page.order())}'")
    out.append("complete -c wsc -n __fish_use_subcommand -l version -d 'the version'")
    out.append("complete -c wsc -s h -l help -d 'a screen of help'")
    for option, (value, text) in page.options.items():
        having = " ".join(name for name in page.order() if option in page.lines[name][0])
        values = f" -a '{' '.join(map(str, few(page, option)))}'" if few(page, option) else ""
        out.append(f"complete -c wsc -n '__fish_seen_subcommand_from {having}' -l {option}"
                   f"{' -x' + values if value else ''} -d {quoted(short(text))}")
    numbers = " ".join(name for name in page.order() if not page.lines[name][1])
    out.append(f"complete -c wsc -n '__fish_seen_subcommand_from {numbers}' -f")
    return "\n".join(out) + "\n"


MADE = {"help.txt": help_text, "words.bash": words_bash, "complete/wsc.bash": complete_bash,
        "complete/_wsc": complete_zsh, "complete/wsc.fish": complete_fish}


def main() -> int:
    page, wrong = Page(), []
    for name, make in MADE.items():
        path, text = HERE / name, make(page)
        if sys.argv[1:] != ["--check"]:
            path.parent.mkdir(parents=True, exist_ok=True)
            path.write_text(text)
        elif not path.exists() or path.read_text() != text:
            wrong.append(f"scripts/launcher/{name} isn't as docs/wsc.1 says; python/run repo.manual makes it")
    print(*wrong, sep="\n", end="\n" if wrong else "")
    return 1 if wrong else 0


if __name__ == "__main__":
    sys.exit(main())

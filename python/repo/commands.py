"""Types the commands of the pages as a newcomer does, and compares what they print.

    python/run repo.commands [PROGRAM]         the program that is installed for it, else that of ./prove; WSL names the linker

What a user meets is copied to a folder, with the program, and `./install` puts it into a home that is new.

- docs/TUTORIAL.md and docs/BACKEND.md are typed, each in a folder with nothing in it. A block whose first line begins with
  `$ ` is a session: such a line is a command, with what stands behind it up to the line END where it ends with <<'END', and
  what it prints stands below; a line `..` stands for any lines. All sessions of a page are one shell's.
- The commands in the blocks of the other pages are run at the top of the copy, and have to end with status 0, or with 2
  where they show a refusal, within ten minutes. Of a plan the first two lines are run. What needs other machines, and
  what serves until it is ended, is left out.
"""

import os
import pathlib
import re
import shutil
import subprocess
import sys
import tempfile

from wavescalar.programs import ROOT

PROGRAM = pathlib.Path(sys.argv[1] if len(sys.argv) > 1 else ROOT / "crates" / "wsc" / "out" / "wsc").resolve()
LINKER = pathlib.Path(os.environ.get("WSL") or ROOT / "crates" / "wsl" / "out" / "wsl").resolve()
PARTS = ("wsc", "wsl", "install", "release", "scripts", "python", "docs", "tests", "examples", "bench", "crates.txt")
TYPED = ("docs/TUTORIAL.md", "docs/BACKEND.md")
OTHERS = ("README.md", "docs/ASSEMBLY.md", "docs/LIMITS.md", "docs/EXPERIMENTS.md", "docs/VIEWER.md")
BLOCK = re.compile(r"^```\n(\$ .*?)^```$", re.S | re.M)
# Lines of the other pages that are commands, and words of those that this machine may not have, or that go on for long.
BEGINS = re.compile(r"(?:    )?((?:\./wsc|\./install|\(?wsc|python/|xargs|taskset|python3 -c) ?.*)")
ABSENT = ("parallel", "array.sh", ".ci/run", "wsc-serve")
Session = list[tuple[str, list[str]]]


def copied(room: pathlib.Path) -> pathlib.Path:
    """A copy of what a user meets, with the programs."""
    for name in PARTS:
        (room / name).parent.mkdir(parents=True, exist_ok=True)
        if (ROOT / name).is_dir():
            shutil.copytree(ROOT / name, room / name, ignore=shutil.ignore_patterns("__pycache__"))
        else:
            shutil.copy2(ROOT / name, room / name)
    for program, source in (("wsc", PROGRAM), ("wsl", LINKER)):
        for name in ("src", "specs", "out"):
            (room / "crates" / program / name).mkdir(parents=True)
        shutil.copy(source, room / "crates" / program / "out" / program)
    return room


def sessions(page: pathlib.Path) -> Session:
    """The commands of a page, each with the lines that it is to print."""
    found: Session = []
    for block in BLOCK.findall(page.read_text()):
        lines = iter(block.splitlines())
        for line in lines:
            if line.startswith("$ "):
                command = line[2:]
                while command.partition("\n")[0].endswith("<<'END'") and not command.endswith("\nEND"):
                    command += "\n" + next(lines)
                found.append((command, []))
            else:
                found[-1][1].append(line)
    return found


def agrees(told: list[str], wanted: list[str]) -> bool:
    """Whether lines are as they are to be, where `..` stands for any."""
    pattern = "".join(r"(?:.*\n)*" if line == ".." else re.escape(line) + "\n" for line in wanted)
    return re.fullmatch(pattern, "".join(f"{line}\n" for line in told)) is not None


def typed(page: pathlib.Path, folder: pathlib.Path, env: dict[str, str]) -> tuple[int, list[str]]:
    """The number of commands in the sessions of a page, and what is wrong with them."""
    mark, asked = "== next ==", sessions(page)
    script = "".join(f"{command}\necho '{mark}'\n" for command, _ in asked)
    done = subprocess.run(["bash"], input=script, cwd=folder, env=env, capture_output=True, text=True, check=False)
    answers = done.stdout.split(f"{mark}\n")
    wrong = [f"{page.relative_to(ROOT)}: {command}\nprints\n{told}and not\n" + "\n".join(wanted)
             for (command, wanted), told in zip(asked, answers) if not agrees(told.splitlines(), wanted)]
    if len(answers) != len(asked) + 1:
        wrong.append(f"{page.relative_to(ROOT)}: the shell ended early: {done.stderr}")
    return len(asked), wrong


def commands(page: pathlib.Path) -> list[str]:
    """The lines in a page's blocks that are commands, those that go on joined."""
    text = re.sub(r" *\\\n *", " ", page.read_text())
    inside, found = False, []
    for line in text.splitlines():
        inside = inside != line.startswith("```")
        at = BEGINS.fullmatch(line) if inside or line.startswith("    ") else None
        if at and not any(word in line for word in ABSENT):
            found.append(at[1])
    return found


def called(page: pathlib.Path, folder: pathlib.Path, env: dict[str, str]) -> tuple[int, list[str]]:
    """The number of commands in a page's blocks, and what is wrong with them."""
    asked, wrong = commands(page), []
    for command in asked:
        done = subprocess.run(["bash", "-o", "pipefail", "-c", command], cwd=folder, env=env, stdin=subprocess.DEVNULL,
                              capture_output=True, text=True, check=False, timeout=600)
        if done.returncode and not (done.returncode == 2 and "refused" in done.stdout):
            wrong.append(f"{page.relative_to(ROOT)}: {command}\nends with status {done.returncode}: {done.stderr[-500:]}")
        plan = folder / "plan.txt"
        if plan.exists():
            plan.write_text("".join(plan.read_text().splitlines(keepends=True)[:2]))
    return len(asked), wrong


def main() -> int:
    with tempfile.TemporaryDirectory() as room:
        home, top = pathlib.Path(room) / "home", copied(pathlib.Path(room) / "repository")
        home.mkdir()
        env = {"HOME": str(home), "PATH": f"{home}/.local/bin:{os.environ['PATH']}"}
        subprocess.run([top / "install"], env=env, capture_output=True, check=True)
        # what a page takes for the reader's own
        shutil.copy(ROOT / "examples" / "sum.job", top)
        shutil.copy(ROOT / "examples" / "choice.asm", top / "image.asm")
        found = [typed(ROOT / name, pathlib.Path(tempfile.mkdtemp(dir=room)), env) for name in TYPED]
        found += [called(ROOT / name, top, env) for name in OTHERS]
    wrong = [line for _, lines in found for line in lines]
    print("\n".join([*wrong, f"{sum(count for count, _ in found)} commands of pages, {len(wrong)} wrong"]))
    return 1 if wrong else 0


if __name__ == "__main__":
    sys.exit(main())

#!/usr/bin/env python3
"""Compares `wss` with `wsc exec` on assemblies with input sections.

    python3 bench/streams.py WSC WSS [--gen N] [--drafts N] [FILE..]

WSC and WSS are the two programs.  A FILE is an assembly (.asm), or a job, which is
compiled; of a text that is refused the two answers are compared as well.  --gen N adds
the generated jobs 0 to N - 1, and --drafts N the random images 0 to N - 1 of
tests/diagnose/drafts, with an input.  Each text is run with several budgets, with and
without --memory and --stats; of those that are generated each budget has one choice of
these, in turn, and is at most 100,000.  Where `exec` comes to an end, an index fault or a refusal, the two
have to give the same bytes and the same status.  Where its budget is spent, so has `wss`
or it has met the index fault that the whole run meets, and its words are a front of the
words of the whole run.  Prints a line for each difference, then the counts; the status is
1 where there is a difference.
"""

import argparse
import collections
import subprocess
import sys
from pathlib import Path

sys.path.insert(0, str(Path(__file__).resolve().parent.parent / 'python'))
from tests.diagnose.drafts import Draft

BUDGET, FAULT = 3, 8
MOST = 4_000_000
MOST_GENERATED = 100_000
FLAGS: list[list[str]] = [[], ['--memory'], ['--stats'], ['--memory', '--stats']]
Answer = tuple[int, bytes]


def call(program: str, words: list[str], text: bytes) -> Answer:
    done = subprocess.run([program, *words], input=text, capture_output=True, timeout=120, check=False)
    return done.returncode, done.stdout


def assembly_of(wsc: str, job: bytes) -> bytes:
    """The assembly of a job with the job's input section; the job itself where it is refused."""
    status, code = call(wsc, ['compile'], job)
    if status != 0:
        return job
    lines = job.splitlines(keepends=True)
    for place, line in enumerate(lines):
        if line.rstrip(b'\r\n') == b'%input':
            return code + b''.join(lines[place:])
    return code


def words_of(out: bytes) -> list[bytes]:
    """The lines in front of the one that tells how a run ended."""
    words = []
    for line in out.split(b'\n'):
        if not line.isdigit():
            break
        words.append(line)
    return words


def firings_of(out: bytes) -> int:
    for line in out.split(b'\n'):
        if line.startswith(b'firings '):
            return int(line.split()[1])
    return 0


def agree(ours: Answer, theirs: Answer, whole: Answer) -> bool:
    """Whether `ours` may stand beside `theirs`, the answer of `exec`, where `whole` is that with the most budget."""
    if theirs[0] != BUDGET:
        return ours == theirs
    if ours[0] == FAULT:
        return whole[0] != FAULT or words_of(ours[1]) == words_of(whole[1])
    words = words_of(ours[1])
    return ours[0] == BUDGET and words == words_of(whole[1])[:len(words)]


def budgets_of(firings: int, most: int) -> list[int]:
    """Budgets around the ends of a run of so many firings, and on its way."""
    some = {0, 1, 2, 7, firings // 3, firings // 2, firings - 1, firings, firings + 1, most}
    return sorted(n for n in some if 0 <= n <= most)


def compare(wsc: str, wss: str, name: str, text: bytes, counts: collections.Counter[str], turn: int | None = None) -> None:
    """Compares the answers to a text with all flags, or with those whose turn it is at each budget."""
    most = MOST if turn is None else MOST_GENERATED
    counts['texts'] += 1
    whole = call(wsc, ['exec', '--stats', '--budget', str(most)], text)
    for place, budget in enumerate(budgets_of(firings_of(whole[1]), most)):
        for flags in FLAGS if turn is None else [FLAGS[(turn + place) % len(FLAGS)]]:
            theirs = call(wsc, ['exec', '--budget', str(budget), *flags], text)
            ours = call(wss, ['--budget', str(budget), *flags], text)
            counts['calls'] += 1
            counts[f'status {ours[0]}'] += 1
            if not agree(ours, theirs, whole):
                counts['differences'] += 1
                print(f'{name}: --budget {budget} {flags}: exec {theirs[0]} {theirs[1][-200:]!r}, wss {ours[0]} '
                      f'{ours[1][-200:]!r}')
    if whole[0] != BUDGET:
        counts['calls'] += 1
        if call(wss, ['--stats'], text) != whole:
            counts['differences'] += 1
            print(f'{name}: without a budget')


def draft(number: int) -> bytes:
    """A random image, with an input."""
    lines = Draft(number, 1 + number % 6, linked=True).lines()
    return '\n'.join([*lines, '%input', f'{number % 7} 0 3 1', '']).encode()


def main() -> int:
    parser = argparse.ArgumentParser(description=__doc__, formatter_class=argparse.RawDescriptionHelpFormatter)
    parser.add_argument('wsc')
    parser.add_argument('wss')
    parser.add_argument('files', nargs='*', type=Path)
    parser.add_argument('--gen', type=int, default=0, metavar='N')
    parser.add_argument('--drafts', type=int, default=0, metavar='N')
    options = parser.parse_intermixed_args()
    counts: collections.Counter[str] = collections.Counter()
    for file in options.files:
        text = file.read_bytes()
        compare(options.wsc, options.wss, file.name, text if file.suffix == '.asm' else assembly_of(options.wsc, text),
                counts)
    for number in range(options.gen):
        compare(options.wsc, options.wss, f'gen {number}',
                assembly_of(options.wsc, call(options.wsc, ['gen', str(number)], b'')[1]), counts, number)
    for number in range(options.drafts):
        compare(options.wsc, options.wss, f'draft {number}', draft(number), counts, number)
    print(', '.join(f'{name} {count}' for name, count in sorted(counts.items())))
    return 1 if counts['differences'] else 0


if __name__ == '__main__':
    sys.exit(main())

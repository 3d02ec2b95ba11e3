"""Report the numbers of a run, from what `wsc trace` prints.

FILE is a text with a section %trace, an assembly without one, or a job; without FILE, standard input is read. wsc compiles
a job and traces what has no trace.

A firing is an instance that has all its tokens; an issue is a memory operation that is done. A firing depends on the
firings and issues that sent its tokens. An issue depends on its own firing and on the issue of the operation before it; for
a load, on that of the operation that reaches its ripple number. The critical path is the longest chain of firings and
issues that depend on each other. In an ideal round all tokens arrive that are in flight when it begins, and all requests
are issued that may be, one after another. A wave number is in flight while it has a token in flight or at a port, or a
request that waits.
"""

import csv
import functools
import pathlib
import sys

from wavescalar.cli import Line, add_program, given, whole
from wavescalar.programs import traced
from wavescalar.viewer.measure import Profile
from wavescalar.viewer.profile_report import picture, table, told


def main() -> int:
    ask = Line(__doc__)
    ask.add_argument("file", metavar="FILE", nargs="?", help="a trace, an assembly or a job")
    ask.add_argument("--csv", action="store_true", help="print a table in long form in place of the text")
    ask.add_argument("--svg", metavar="PICTURE", help="write a picture to this file too")
    ask.add_argument("--title", metavar="TEXT", help="the picture's title (the file's name)")
    add_program(ask)
    line = ask.parse_args()
    profile = Profile(traced(line.wsc, given(line.file)))
    if line.csv:
        csv.writer(sys.stdout, lineterminator="\n").writerows(table(profile))
    else:
        print(told(profile), end="")
    if line.svg:
        title = line.title or (pathlib.Path(line.file).stem if line.file not in (None, "-") else "wsc")
        pathlib.Path(line.svg).write_text(picture(profile, title))
    return 0


tool = functools.partial(whole, main, images=True)

if __name__ == "__main__":
    sys.exit(tool())

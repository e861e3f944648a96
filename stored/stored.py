"""The stored scripts, answers and commands, each line written out.

In the files a run of lines is one line `N* LINE`: it stands for N lines, and a number with `..` behind it rises by one from each to
the next. So `3* child 2.. root 5` is `child 2 root 5`, `child 3 root 5` and `child 4 root 5`.
"""

import pathlib
import re

HERE = pathlib.Path(__file__).resolve().parent

RUN = re.compile(rb"([0-9]+)\* (.*)", re.DOTALL)
NUMBER = re.compile(rb"([0-9]+)(\.\.)?")


def lines_of(line):
    """The lines that a line of a file stands for."""
    run = RUN.fullmatch(line)
    if run is None:
        return [line]
    many, shown = int(run[1]), run[2]
    return [NUMBER.sub(lambda number: b"%d" % (int(number[1]) + (step if number[2] else 0)), shown) for step in range(many)]


def read(name):
    """What the stored file says."""
    return b"\n".join(said for line in (HERE / name).read_bytes().split(b"\n") for said in lines_of(line))

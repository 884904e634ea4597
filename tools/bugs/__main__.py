"""Plants bugs in the functions of crates, and tells which of them the contracts let through.

usage: python3 tools/bugs [--in FOLDER] [--each N] [--private N] [--more FILE] [--out FILE] CRATE..
       python3 tools/bugs --edits [--in FOLDER] [--only WORD] CRATE..
       python3 tools/bugs --list CRATE..
       python3 tools/bugs --table FILE..

The crates are changed in FOLDER, a clone of this repository (target/bugs, which is made if it is not there). Each public
function gets N bugs that compile (3), each private one --private (0), its must-fail edits counted with them. --more names
a file of bugs that are written by hand and come first: lines of CRATE, FUNCTION, OLD and NEW, parted by tabs, where OLD
stands in the function once.

What came of each bug is added to FILE (target/bugs.jsonl), a line each; what stands there already is not tried again.
--edits tries the must-fail edits (those whose names contain WORD), and tells of each function that they turn whether it is
refused for a fact. --list shows how many bugs there are to choose from. --table writes a table of what stands in such files.
"""

import argparse
import collections
import pathlib
import subprocess

import telling
from edits import try_edits
from trying import Crate


def arguments():
    parser = argparse.ArgumentParser(usage=__doc__)
    parser.add_argument("--in", dest="folder", default="target/bugs")
    parser.add_argument("--each", type=int, default=3)
    parser.add_argument("--private", type=int, default=0)
    parser.add_argument("--more")
    parser.add_argument("--out", default="target/bugs.jsonl")
    parser.add_argument("--edits", action="store_true")
    parser.add_argument("--only", default="")
    parser.add_argument("--list", action="store_true")
    parser.add_argument("--table", action="store_true")
    parser.add_argument("names", nargs="+")
    return parser.parse_args()


def clone(folder):
    root = pathlib.Path(folder)
    if not root.exists():
        subprocess.run(["git", "clone", "-q", ".", str(root)], check=True)
    return root.resolve()


def hand_written(file):
    """The bugs of such a file, by crate."""
    found = collections.defaultdict(list)
    for line in pathlib.Path(file).read_text(encoding="utf-8").splitlines() if file else []:
        crate, *bug = line.split("\t")
        found[crate].append(bug)
    return found


def main():
    args = arguments()
    if args.table:
        telling.write_table(args.names)
        return
    root, rows, more = clone(args.folder), telling.read_rows(args.out), hand_written(args.more)
    for name in args.names:
        crate = Crate(root, name, args.each, args.private, more[name])
        if args.list:
            crate.show()
            continue
        if args.edits:
            try:
                try_edits(crate, args.only)
            finally:
                crate.restore()
            continue
        with open(args.out, "a", encoding="utf-8") as out:
            try:
                crate.run(out, rows)
            finally:
                crate.restore()


if __name__ == "__main__":
    main()

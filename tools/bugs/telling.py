"""Tells what came of the bugs that were tried."""

import collections
import json
import pathlib
import sys

from making import KINDS
from reading import edits_of
from trying import COUNTED


def read_rows(name):
    file = pathlib.Path(name)
    return [json.loads(line) for line in file.read_text(encoding="utf-8").splitlines()] if file.exists() else []


def write_table(files):
    rows = [row for file in files for row in read_rows(file) if row["came"] in COUNTED]
    tried = collections.OrderedDict()
    for row in rows:
        if row["public"]:
            tried.setdefault((row["crate"], row["function"]), []).append(row)
    print("| crate | function | " + " | ".join(KINDS) + " | let through | edits |")
    print("|---|---|" + "---|" * (len(KINDS) + 2))
    last, edits = None, None
    for (crate, function), own in tried.items():
        if crate != last:
            edits = edits_of(pathlib.Path("crates", crate))
        counts = collections.Counter(row["kind"] for row in own)
        through = sum(row["came"] == "survived" for row in own)
        cells = [*(counts[kind] for kind in KINDS), through, edits[function]]
        name = f"`{crate}`" if crate != last else ""
        print(f"| {name} | `{function}` | " + " | ".join(str(cell or "") for cell in cells) + " |")
        last = crate
    for public in (True, False):
        own = [row for row in rows if row["public"] == public]
        functions, through = {row["path"] for row in own}, [row for row in own if row["came"] == "survived"]
        sort = "public" if public else "private"
        print(f"{sort}: {len(functions)} functions, {len(own)} bugs, {len(through)} let through", file=sys.stderr)

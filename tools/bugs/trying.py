"""Tries the bugs of a crate. Since a function is proved from the contracts of those that it calls, one check tells of a bug
in each function of the crate."""

import collections
import json
import re
import subprocess
import sys

from making import Bug, Maker
from reading import edits_of, functions_of

COUNTED = ("refused", "survived")
# What a proof file says where it misses a name that the code no longer gives: it shows nothing of the bug.
NAMES = re.compile(r"has no (field )?`|that can be named from here|cannot find|not in scope|is no goal|unknown")

# What the checker says of a function that is not judged, since one that it calls has no proof.
WAITS = re.compile("it calls|prove it first")


def enum_variants(root):
    found = collections.defaultdict(list)
    for file in root.glob("crates/*/src/**/*.rt"):
        for m in re.finditer(r"pub enum (\w+)[^{]*\{(.*?)\n\}", file.read_text(), re.S):
            for name in re.findall(r"^    (\w+)(?:,|\(| \{|$)", m[2], re.M):
                if name not in found[m[1]]:
                    found[m[1]].append(name)
    return found


class Crate:
    def __init__(self, root, name, each, private, more):
        self.name, self.folder = name, root / "crates" / name
        self.texts = {file: file.read_text() for file in sorted(self.folder.glob("src/**/*.rt"))}
        self.functions, variants, edits = [], enum_variants(root), edits_of(self.folder)
        for file, text in self.texts.items():
            fields = set(re.findall(r"self\.([a-z]\w*)(?![\w(])", text))
            for function in functions_of(file, text.split("\n")):
                function.bugs = Maker(function, variants, fields).bugs()
                function.wanted = max(0, (each if function.public else private) - edits[str(function)])
                self.functions.append(function)
        for bug in more:
            self.add_by_hand(*bug)

    def add_by_hand(self, name, old, new):
        places = [
            (function, at)
            for function in self.functions if str(function) == name
            for at in function.body() if old in function.lines[at]
        ]
        if len(places) != 1:
            sys.exit(f"{self.name}: '{old}' stands in {name} {len(places)} times, and not once")
        [(function, at)] = places
        line = function.lines[at]
        function.bugs.insert(0, Bug("by hand", at, line.strip(), line.replace(old, new)))

    def show(self):
        for it in self.functions:
            kinds = dict(collections.Counter(bug.kind for bug in it.bugs))
            print(it.file.name, it, "public" if it.public else "private", len(it.bugs), kinds)

    def restore(self):
        self.plant({})

    def plant(self, chosen):
        lines = {file: text.split("\n") for file, text in self.texts.items()}
        for function, bug in chosen.items():
            lines[function.file][bug.line] = bug.new
        self.write({file: "\n".join(text) for file, text in lines.items()})

    def write(self, texts):
        for file, text in texts.items():
            file.write_text(text)

    def check(self, *arguments):
        words = ["rt", "check", "--jobs", "1", *arguments]
        ran = subprocess.run(words, cwd=self.folder, capture_output=True, text=True, check=False)
        return ran.stdout + ran.stderr

    def complain(self, text):
        print(f"{self.name}: {text}", file=sys.stderr)

    def run(self, out, rows):
        output = self.check()
        if not re.search(r"^logic=proved", output, re.M):
            self.complain("not proved as it stands: " + output[-1500:])
            return
        self.begin(output, rows)
        while chosen := self.compiled([it for it in self.functions if it.path and it.tried < it.wanted]):
            for function, bug, came, why in self.judged(chosen):
                function.tried += came in COUNTED
                function.turns += 1
                self.tell(out, function, bug, came, why)
            out.flush()
        for function in self.functions:
            if function.tried < function.wanted:
                self.complain(f"{function.path or function}: {function.tried} bugs")

    def begin(self, output, rows):
        """Finds what the checker calls each function, and leaves out what was tried before."""
        paths = re.findall(r"^fn (\S+): ", output, re.M)
        for function in self.functions:
            function.path = self.path_of(function, paths)
            if function.wanted and not function.path:
                self.complain(f"no name for {function}")
            done = [row for row in rows if row["path"] == function.path]
            known = {(row["old"], row["new"]) for row in done}
            function.tried = sum(row["came"] in COUNTED for row in done)
            function.bugs = [bug for bug in function.bugs if (bug.old, bug.new.strip()) not in known]

    def path_of(self, function, paths):
        place = function.file.relative_to(self.folder / "src").with_suffix("").parts
        module = "::".join([self.name, *(part for part in place if part not in ("lib", "main"))])
        if not function.owner:
            return next((path for path in paths if path == f"{module}::{function.name}"), None)
        fits = [path for path in paths if path.endswith(f"::{function}")]
        near = [path for path in fits if path.startswith(module + "::")] or fits
        return near[0] if len(near) == 1 else None

    def compiled(self, left):
        """A bug for each of these functions that has one left that compiles, unless most of its bugs say nothing."""
        take = lambda functions: {it: it.bugs.pop(0) for it in functions if it.bugs and it.turns < 2 * it.wanted}
        chosen = take(left)
        while chosen:
            self.plant(chosen)
            output = self.check("--only", "")
            places = re.findall(r"^(src/\S+?):(\d+):\d+: error", output, re.M)
            wrong = [it for it in chosen if any(self.is_in(it, *place) for place in places)]
            if not places and re.search(r"^only=", output, re.M):
                return chosen
            if not wrong:
                self.complain("cannot tell what does not compile: " + output[-1500:])
                return {}
            for function in wrong:
                del chosen[function]
            chosen.update(take(wrong))
        return {}

    def is_in(self, function, file, line):
        return self.folder / file == function.file and function.head < int(line) <= function.last + 1

    def judged(self, chosen):
        """What came of each bug. A function that is refused for what it calls is tried again without the bugs of others."""
        while chosen:
            self.plant(chosen)
            output, waiting = self.check(), {}
            for function, bug in chosen.items():
                came, why = self.verdict(function, output)
                if came == "waits" and len(chosen) > 1:
                    waiting[function] = bug
                else:
                    yield function, bug, came, why
            if len(waiting) == len(chosen):
                first = next(iter(waiting))
                yield from self.judged({first: waiting.pop(first)})
            chosen = waiting

    def verdict(self, function, output):
        path = re.escape(function.path)
        lines = re.findall(rf"^(?:fn {path}|impl {path.rpartition('::')[0]}): (.*)$", output, re.M)
        verdicts = [line for line in lines if not line.startswith("proved")]
        if not re.search(r"^logic=", output, re.M) or not lines:
            return "unclear", output[-600:]
        if not verdicts:
            return "survived", ""
        place = "proofs/" + "/".join(function.path.split("::")[1:]) + "/"
        errors = re.findall(rf"^\S*{re.escape(place)}\S+: error: (.*)$", output, re.M)
        facts = [error for error in errors if not NAMES.search(error)]
        why = " | ".join(verdicts + [error[:160] for error in (facts or errors)[:2]])[:600]
        if facts or "did not prove" in why:
            return "refused", why
        if errors:
            return "names", why
        return ("waits" if all(WAITS.search(line) for line in verdicts) else "unclear"), why

    def tell(self, out, function, bug, came, why):
        print(f"{self.name} {function} {bug.kind} {came}: {bug.old}  ->  {bug.new.strip()}", flush=True)
        row = {
            "crate": self.name, "function": str(function), "path": function.path, "public": function.public,
            "kind": bug.kind, "file": str(function.file.relative_to(self.folder)), "line": bug.line + 1,
            "old": bug.old, "new": bug.new.strip(), "came": came, "why": why,
        }
        out.write(json.dumps(row) + "\n")

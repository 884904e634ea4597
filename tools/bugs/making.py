"""Makes the bugs of a function. A bug changes one line; whether it compiles is found out later."""

import collections
import re

from reading import indent_of

KINDS = ["operator", "constant", "argument", "dropped", "swapped", "result", "by hand"]
SKIPPED = re.compile(r"^\s*(//|ghost\b|#\[|invariant\b|decreases\b|use\b|$)")
OPERATOR = re.compile(r"(?<= )(<<|>>|<=|>=|==|!=|\+=|-=|\|=|&&|\|\||[<>+\-*/%|])(?= )")
TURNED = {
    "<": ["<=", ">"], "<=": ["<", ">="], ">": [">=", "<"], ">=": [">", "<="], "==": ["!="], "!=": ["=="],
    "+": ["-"], "-": ["+"], "*": ["+"], "/": ["*"], "%": ["/"], "&&": ["||"], "||": ["&&"], "<<": [">>"], ">>": ["<<"],
    "+=": ["-="], "-=": ["+="], "|=": ["&="], "|": ["&"],
}
OPPOSITE = {
    "first": "last", "min": "max", "take": "skip", "is_some": "is_none", "is_ok": "is_err", "all": "any",
    "checked_add": "checked_sub",
}
OPPOSITE |= {there: here for here, there in OPPOSITE.items()}

Bug = collections.namedtuple("Bug", "kind line old new")


class Maker:
    """Gathers the bugs of one function. `variants` are those of each enum, `fields` those that its file names of `self`."""

    def __init__(self, function, variants, fields):
        self.function, self.variants, self.fields = function, variants, fields
        self.lines, self.names = function.lines, function.names()
        self.found = {kind: [] for kind in KINDS}

    def bugs(self):
        for at in self.function.body():
            if SKIPPED.match(self.lines[at]):
                continue
            code = self.lines[at].split(" //")[0]
            masked = re.sub(r'"(?:[^"\\]|\\.)*"', lambda m: '"' + "_" * (len(m[0]) - 2) + '"', code)
            self.operators(at, masked)
            self.constants(at, masked, code)
            self.arguments(at, masked)
            self.drops(at)
            self.swaps(at)
        self.results()
        return spread(self.found)

    def add(self, kind, at, new):
        if new != self.lines[at]:
            self.found[kind].append(Bug(kind, at, self.lines[at].strip(), new))

    def put(self, kind, at, match, new):
        line = self.lines[at]
        self.add(kind, at, line[: match.start()] + new + line[match.end() :])

    def operators(self, at, masked):
        for m in OPERATOR.finditer(masked):
            for new in TURNED[m[0]] if m[0] != "|" or "=>" not in masked else []:
                self.put("operator", at, m, new)
        for m in re.finditer(r"(?<![\w)\]=!])!(?=[\w(])", masked):
            self.put("operator", at, m, "")
        for m in re.finditer(r"(?<=\.)(\w+)(?=\()", masked):
            if m[0] in OPPOSITE:
                self.put("operator", at, m, OPPOSITE[m[0]])

    def constants(self, at, masked, code):
        for m in re.finditer(r"(?<![\w.\"'])(\d[\d_]*)(?![\w.\"'])", masked):
            self.put("constant", at, m, str(int(m[0].replace("_", "")) + 1))
        for m in re.finditer(r"(?<![\w.])0x([0-9a-fA-F]+)\b", masked):
            self.put("constant", at, m, hex(int(m[1], 16) ^ 1))
        for m in re.finditer(r"b'(.)'|b?\"([^\"{}]*[a-zA-Z#][^\"{}]*)\"", code):
            text = m[1] or m[2]
            self.put("constant", at, m, m[0].replace(text, text[:-1] + ("x" if text[-1] != "x" else "y")))
        # A text that shows values: its first letter outside of braces.
        for m in re.finditer(r"\"(?:[^\"{}a-z]|\{[^}]*\})*([a-z])[^\"]*\{[^\"]*\"|\"(?:[^\"{}a-z]|\{[^}]*\})+([ :,])\"", code):
            group = 1 if m[1] else 2
            new = code[: m.start(group)] + "#" + code[m.end(group) :]
            self.add("constant", at, new)
        for m in re.finditer(r"\b(true|false)\b", masked):
            self.put("constant", at, m, {"true": "false", "false": "true"}[m[0]])
        for m in re.finditer(r"\b[A-Z][A-Z0-9_]{2,}\b", masked):
            self.put("constant", at, m, f"({m[0]} - 1)")
        for m in re.finditer(r"\b([A-Z]\w*)::([A-Z]\w*)\b", masked):
            for other in self.variants.get(m[1], []):
                if other != m[2]:
                    self.put("constant", at, m, f"{m[1]}::{other}")

    def arguments(self, at, masked):
        line = self.lines[at]
        for begin, end in calls_in(masked):
            parts = split_arguments(line[begin:end])
            for n in range(len(parts) - 1):
                turned = parts[:n] + [parts[n + 1], parts[n]] + parts[n + 2 :]
                self.add("argument", at, line[:begin] + ", ".join(turned) + line[end:])
        for m in re.finditer(r"(?<=\.)([a-z]\w*)(?![\w(!])", masked):
            for other in sorted(self.fields - {m[0]}):
                self.put("argument", at, m, other)
        for m in re.finditer(r"(?<![\w.:&])([a-z]\w*)(?![\w(!:.])", masked):
            for other in sorted(self.names - {m[0]}) if m[0] in self.names else []:
                self.put("argument", at, m, other)
        if re.search(r"[A-Z]\w* \{", masked):
            for m in re.finditer(r"(?<=[{,] )([a-z]\w*)(?=[,}]| \})", masked):
                for other in [*sorted(self.names - {m[0]}), "0", "false"]:
                    self.put("argument", at, m, f"{m[0]}: {other}")

    def drops(self, at):
        line, before = self.lines[at], self.lines[at - 1].rstrip()
        is_statement = re.match(r"^\s+[a-z*].*;$", line) and not re.match(r"^\s+(let|return)\b", line)
        if is_statement and (before.endswith((";", "{", "}")) or SKIPPED.match(before)):
            self.add("dropped", at, "")
        m = re.match(r"^(\s*if )(?!let )(.+) \{$", line)
        for never in ("false", "true") if m else ():
            self.add("dropped", at, f"{m[1]}{never} {{")

    def swaps(self, at):
        line = self.lines[at]
        m = re.match(r"^(\s*(?:\} else )?(?:if|while) )(?!let )(.+) \{$", line)
        if m:
            self.add("swapped", at, f"{m[1]}!({m[2]}) {{")
        arm = re.match(r"^(\s*)(.+) => (.+),$", line)
        # An arm that answers what the one below it answers, or the one above it.
        for other in (self.lines[at + 1], self.lines[at - 1]) if arm else ():
            near = re.match(r"^(\s*)(.+) => (.+),$", other)
            if near and near[1] == arm[1]:
                self.add("swapped", at, f"{arm[1]}{arm[2]} => {near[3]},")

    def results(self):
        """Another answer in place of the last expression, where that is one line."""
        last = self.function.last - 1
        text, before = self.lines[last].strip(), self.lines[last - 1].rstrip()
        if last > self.function.first and before.endswith((";", "{", "}")) and not text.endswith((";", "}", "{")):
            for new in other_answers(self.function.result, text):
                self.add("result", last, " " * indent_of(self.lines[last]) + new)


def other_answers(kind, text):
    for shell, inner in (("Ok", r"Result<(.+?)(?:, .*)?>$"), ("Some", r"Option<(.+)>$")):
        m, own = re.match(inner, kind), re.fullmatch(rf"{shell}\((.+)\)", text)
        if m and own and m[1] != "()":
            return [f"{shell}({new})" for new in other_answers(m[1], own[1])]
    if kind == "bool":
        return [f"!({text})", "true", "false"]
    if re.fullmatch(r"u8|u16|u32|u64|usize|View", kind):
        return [f"({text}) ^ 1", "0", "1"]
    if kind.startswith("Option"):
        return ["None"]
    return ["Ok(())"] if kind.startswith("Result<()") else []


def calls_in(line):
    """Where the arguments of each call begin and end."""
    for m in re.finditer(r"(?<=\w)\(", line):
        depth = 0
        for at in range(m.start(), len(line)):
            depth += (line[at] in "([{") - (line[at] in ")]}")
            if depth == 0:
                yield m.end(), at
                break


def split_arguments(text):
    parts, depth, begin = [], 0, 0
    for at, sign in enumerate(text):
        depth += (sign in "([{") - (sign in ")]}")
        if sign == "," and depth == 0:
            parts.append(text[begin:at])
            begin = at + 1
    return [part.strip() for part in parts + [text[begin:]] if part.strip()]


def spread(found):
    """One bug of each kind, and then again, so that a few are of many kinds; those of a kind go from line to line."""
    queues = [in_turn(by_line(bugs)) for bugs in found.values()]
    order = {}
    for bug in in_turn(queues):
        order.setdefault((bug.line, bug.new), bug)
    return list(order.values())


def by_line(bugs):
    lines = collections.OrderedDict()
    for bug in bugs:
        lines.setdefault(bug.line, []).append(bug)
    return list(lines.values())


def in_turn(queues):
    longest = max(map(len, queues), default=0)
    return [queue[n] for n in range(longest) for queue in queues if n < len(queue)]

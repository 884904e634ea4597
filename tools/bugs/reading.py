"""Finds the functions of a file, by the form that rt fmt gives, and the must-fail edits of each."""

import collections
import re

HEAD = re.compile(
    r"^(?P<indent> *)(?P<pub>pub(?P<part>\([^)]*\))? )?(?:const )?(?:unsafe )?(?:extern \"C\" )?fn (?P<name>\w+)"
)
OWNER = re.compile(r"^ *(?:unsafe )?(?:pub )?(?P<kind>impl|trait)\b")
CLAUSE = re.compile(r"^\s*(requires|ensures|decreases|ghost)\b")
TEST = re.compile(r"^\s*#\[(cfg\(test\)|test)\]")


class Function:
    """A function with a body: the lines from its head to its last brace, counted from 0."""

    def __init__(self, file, name, owner, public, lines, head, first, last):
        self.file, self.name, self.owner, self.public = file, name, owner, public
        self.head, self.first, self.last = head, first, last
        self.lines = lines
        said = " ".join(line.strip() for line in lines[head : first + 1] if not CLAUSE.match(line)).rstrip("{ ")
        answer = re.search(r"-> (.+?)(?: where .*)?$", said)
        self.result = answer[1] if answer else ""
        # How the checker calls it, which bugs there are to choose from, and how many were tried and how often.
        self.path, self.bugs, self.wanted, self.tried, self.turns = None, [], 0, 0, 0

    def __str__(self):
        return "::".join(filter(None, [self.owner, self.name]))

    def names(self):
        """Its parameters and the names that it binds."""
        head = [line for line in self.lines[self.head : self.first + 1] if not CLAUSE.match(line)]
        body = "\n".join(self.lines[self.first : self.last])
        return set(re.findall(r"(\w+): ", " ".join(head))) | set(re.findall(r"let (?:mut )?(\w+)", body))

    def body(self):
        return range(self.first + 1, self.last)


def functions_of(file, lines):
    found, owners, at, is_test = [], [], 0, False
    while at < len(lines):
        line = lines[at]
        while owners and line.strip() == "}" and indent_of(line) <= owners[-1][0]:
            owners.pop()
        is_test = is_test or bool(TEST.match(line))
        if OWNER.match(line):
            owners += owner_at(lines, at)
        span = span_at(lines, at)
        if span is None:
            at += 1
            continue
        head, (_, owner, of_trait) = HEAD.match(line), owners[-1] if owners else (0, None, False)
        public = bool(head["pub"]) and not head["part"] or of_trait
        if not is_test:
            found.append(Function(file, head["name"], owner, public, lines, at, *span))
        at, is_test = span[1] + 1, False
    return found


def span_at(lines, at):
    """The lines where the body of a function that begins here begins and ends, if one does and has a body."""
    head = HEAD.match(lines[at])
    if not head:
        return None
    indent = head["indent"]
    for first in range(at, len(lines)):
        line = lines[first]
        if line == indent + "{" or line.endswith("{") and not CLAUSE.match(line):
            return next(((first, n) for n in range(first + 1, len(lines)) if lines[n] == indent + "}"), None)
        ends_here = line.endswith(";") and (first == at or CLAUSE.match(line) or line == indent + ");")
        if ends_here or line == indent + "}" and first > at:
            return None
    return None


def owner_at(lines, at):
    """The impl or trait that begins here, unless it ends in the same line: its indent, its name, whether it is of a trait."""
    end = next(n for n in range(at, len(lines)) if "{" in lines[n])
    text = " ".join(line.strip() for line in lines[at : end + 1])
    if text.endswith("}"):
        return []
    if OWNER.match(lines[at])["kind"] == "trait":
        return [(indent_of(lines[at]), re.search(r"trait (\w+)", text)[1], True)]
    text = without_generics(re.sub(r"^(?:unsafe )?impl", "", text).rstrip(" {")).split(" where ")[0].strip()
    of, is_of_trait, own = text.partition(" for ")
    name = spelled(base_of(own)) + spelled(of) if is_of_trait else base_of(text)
    return [(indent_of(lines[at]), name, bool(is_of_trait))]


def spelled(text):
    """A type as the checker spells it in a name: `TryFrom<&[u8]>` is `TryFromRefSliceU8`, without parameters of one letter."""
    trait, _, rest = text.partition("<")
    rest = re.sub(r"'\w+ ?", "", rest).replace("&", " Ref ").replace("[", " Slice ").replace("()", " Unit ")
    words = [trait.split("::")[-1], *re.findall(r"[A-Za-z_]\w+", rest)]
    return "".join(word[:1].upper() + word[1:] for word in words)


def base_of(text):
    return re.sub(r"<.*", "", text.replace("&mut ", "").lstrip("&")).split("::")[-1].strip()


def without_generics(text):
    depth = 0
    for at, sign in enumerate(text if text.startswith("<") else ""):
        depth += (sign == "<") - (sign == ">" and text[at - 1] != "-")
        if depth == 0:
            return text[at + 1 :]
    return text


def indent_of(line):
    return len(line) - len(line.lstrip())


def pairs_of(edit):
    """What a must-fail edit changes: a file, a text that stands in it once, and the text that takes its place."""
    file = old = None
    for line in edit.read_text(encoding="utf-8").split("\n"):
        word, _, text = line.partition(":")
        text = text.removeprefix(" ")
        if word == "file":
            file = text.strip()
        elif word == "old":
            old = text
        elif word == "new":
            yield file, old, text


def turned_by(edit, folder):
    """The function that each pair of an edit turns, where it is in one."""
    for file, old, _ in pairs_of(edit):
        lines = (folder / file).read_text(encoding="utf-8").split("\n")
        at = next((n for n, line in enumerate(lines) if old in line), -1)
        for function in functions_of(file, lines) if file.endswith(".rt") else []:
            if function.head <= at <= function.last:
                yield str(function)


def edits_of(folder):
    """How many must-fail edits turn each function of a crate, by name."""
    edits = folder.glob("must-fail/*.edit")
    return collections.Counter(function for edit in edits for function in turned_by(edit, folder))

"""Tries the must-fail edits of a crate, and tells what came of each function that they turn: the full check asks only that
each edit is refused."""

from reading import pairs_of, turned_by


def planted(crate, edit):
    """The texts of the crate's source files with an edit, or none if it turns another file too."""
    texts = dict(crate.texts)
    for name, old, new in pairs_of(edit):
        file = crate.folder / name
        if file not in texts:
            return None
        texts[file] = texts[file].replace(old, new)
    return texts


def try_edit(crate, edit):
    texts, turned = planted(crate, edit), list(turned_by(edit, crate.folder))
    if texts is None:
        print(f"{crate.name}/{edit.stem}: not tried, it turns more than code", flush=True)
        return
    crate.write(texts)
    output = crate.check()
    for name in turned:
        function = next((it for it in crate.functions if str(it) == name and it.path), None)
        came, why = crate.verdict(function, output) if function else ("unclear", "the checker has no such name")
        told = f"{crate.name}/{edit.stem}: {name} {came}"
        print(told if came == "refused" else f"{told}: {why}", flush=True)


def try_edits(crate, only=""):
    crate.begin(crate.check(), [])
    for edit in sorted(crate.folder.glob("must-fail/*.edit")):
        if only in edit.stem:
            try_edit(crate, edit)
            crate.restore()

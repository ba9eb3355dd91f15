"""Edits of a crate's sources: lines 'file: PATH', and then pairs of 'old: TEXT' and 'new: TEXT'."""

from rattle_answers import without
from rattle_checks import folders_of
from rattle_functions import touched


class BadEdit(Exception):
    pass


class Edit:
    def __init__(self, file, texts):
        self.name = file.stem
        self.texts = {}
        self.pairs = []
        self.functions = set()
        # by file, what is left out of the written proofs when the edit is tried, and the first goal of these
        self.dropped, self.refused_at = {}, ""
        path, old, after = "", None, ""
        for line in file.read_text(encoding="utf-8").split("\n"):
            if line.startswith("file: "):
                path = line[len("file: ") :].strip()
                if path not in texts:
                    raise BadEdit(f"there is no file {path}")
            elif line.startswith("after: "):
                after = line[len("after: ") :]
            elif line.startswith("old: "):
                old = line[len("old: ") :]
            elif line.startswith("new:"):
                if not path or not old:
                    raise BadEdit("a 'new:' line stands before any 'file:' or 'old:' line")
                new = line[len("new:") :].removeprefix(" ")
                self.add(path, after, old, new, self.texts.get(path, texts[path]))
                old, after = None, ""
        if not self.pairs:
            raise BadEdit("it has no 'old:' and 'new:' pair")

    def add(self, path, after, old, new, text):
        at = place(text, after, old)
        if at is None:
            raise BadEdit(f"{path} hasn't the 'old:' text once, or once behind the 'after:' text")
        self.pairs.append((path, after, old, new))
        self.texts[path] = text[:at] + new + text[at + len(old) :]
        if not path.startswith("src/"):
            self.functions.add(None)
            return
        found = touched(path, text, at, at + len(old))
        self.functions.add(found[0] if len(found) == 1 else None)

    def is_of_functions(self):
        return None not in self.functions

    def applied(self, texts):
        """The texts with this edit beside others in them, or none where it doesn't apply beside them."""
        texts = dict(texts)
        for path, after, old, new in self.pairs:
            at = place(texts[path], after, old)
            if at is None:
                return None
            texts[path] = texts[path][:at] + new + texts[path][at + len(old) :]
        for path, names in self.dropped.items():
            texts[path] = without(texts[path], names)[0]
        return texts

    def drop(self, answers, texts):
        """Has written proofs left out from now on, whose names are given by file. Returns whether one of them wasn't yet."""
        has_more = False
        for path, names in answers.items():
            former = self.dropped.get(path, set())
            self.dropped[path] = without(texts[path], names | former)[1]
            has_more = has_more or self.dropped[path] > former
        return has_more

    def dropped_of(self, name):
        """The names of what is left out of the proofs of a function."""
        return {it for path, names in self.dropped.items() if path.startswith(folders_of(name)) for it in names}


def place(text, after, old):
    """Where a text is that is there once, or, behind another one that is there once, the first time."""
    if after:
        at = text.find(old, text.find(after) + len(after)) if text.count(after) == 1 else -1
    else:
        at = text.find(old) if text.count(old) == 1 else -1
    return at if at >= 0 else None

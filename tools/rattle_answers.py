"""The proofs of goals that are written by hand, in the files proofs/../Answers.antt."""

import re

HEAD = re.compile(r"(?:(?:pub|abbrev|unfoldable|opaque) )*([^\s:=(){}\[\],;-][^\s:=(){}\[\],;]*)")


def parts(text):
    """The text in parts, each with the name that it declares: the first, and each of imports or comments, has none."""
    found = [["", ""]]
    for line in text.splitlines(keepends=True):
        head = HEAD.match(line)
        name = head[1] if head else ""
        if line.startswith(("use ", "--")):
            found.append(["", line])
        elif name and name != found[-1][0]:
            found.append([name, line])
        else:
            found[-1][1] += line
    return found


def without(text, names):
    """The text without what it declares under these names, and without what cites that; and the names of all of it."""
    found = parts(text)
    gone = {name for name, _ in found} & set(names)
    while gone:
        cited = re.compile("|".join(rf"(?<![\w.'-]){re.escape(it)}(?![\w'-])" for it in sorted(gone)))
        more = {name for name, said in found if name and name not in gone and cited.search(said)}
        if not more:
            break
        gone |= more
    return "".join(said for name, said in found if name not in gone), gone

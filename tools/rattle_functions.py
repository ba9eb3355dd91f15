"""Where the functions of a file of src/ stand, and under which names rattle has them."""

import re

CLAUSE = re.compile(r"\b(?:requires|ensures|ghost|decreases)\b\*?[^{};]*$")
ITEM = re.compile(r"\bfn (\w+)|\b(impl|trait|mod)\b|\{")


def blanked(text):
    """The text with comments, strings and braces in quotes blanked, and all else in its place."""
    pattern = r'//[^\n]*|/\*.*?\*/|b?"(?:\\.|[^"\\])*"|\'(?:\\.|[{}"])\''
    return re.sub(pattern, lambda it: re.sub(r"[^\n]", " ", it[0]), text, flags=re.S)


def end_of_block(text, at):
    """Where the block ends whose brace stands here."""
    depth = 0
    for it in re.finditer(r"[{}]", text[at:]):
        depth += 1 if it[0] == "{" else -1
        if depth == 0:
            return at + it.end()
    return len(text)


def end_of_function(text, at):
    """Where the function that begins here ends: behind its body, which is the first block that is no clause's."""
    head, depth = at, 0
    while at < len(text):
        if text[at] in "([":
            depth += 1
        elif text[at] in ")]":
            depth -= 1
        elif text[at] == ";" and depth == 0:
            return at + 1
        elif text[at] == "{":
            is_clause = CLAUSE.search(text[head:at])
            at = end_of_block(text, at)
            if not is_clause:
                return at
            head = at
            continue
        at += 1
    return at


def name_of_impl(head):
    """The name under which rattle has an impl: the type's, and behind it the trait's with those of its arguments that
    the impl isn't generic in."""
    depth, generic = 0, ""
    for at, it in enumerate(head):
        depth += (it == "<") - (it == ">")
        if depth == 0:
            generic, head = (head[: at + 1], head[at + 1 :]) if it == ">" else ("", head)
            break
    made, is_of_trait, of = head.partition(" where ")[0].strip().partition(" for ")
    kind = re.match(r"[\w:&' ]*", of if is_of_trait else made)[0].strip().rpartition("::")[2]
    words = re.findall(r"(\w+)\s*(?:<|>|,|$)", made.strip()) if is_of_trait else []
    return kind + "".join(it for it in words if not re.search(rf"\b{it}\b", generic))


def functions(text, inside=(), at=0, end=None):
    """Yields the path of each function of a blanked text below its file's module, and where it begins and ends."""
    end = len(text) if end is None else end
    while it := ITEM.search(text, at, end):
        if it[1]:
            at = end_of_function(text, it.end())
            yield (*inside, it[1]), it.start(), at
            continue
        opens, semicolon = text.find("{", it.start(), end), text.find(";", it.start(), end)
        if opens < 0 or it[2] and 0 <= semicolon < opens:
            at = it.end() if opens < 0 else semicolon + 1
            continue
        at = end_of_block(text, opens)
        if it[2]:
            head = " ".join(text[it.end() : opens].split())
            name = name_of_impl(head) if it[2] == "impl" else re.match(r"\w*", head)[0]
            yield from functions(text, (*inside, name), opens + 1, at - 1)


def module_of(path):
    """The module of a file of src/, as its names."""
    names = path[len("src/") : -len(".rt")].split("/")
    return tuple(names[:-1] if names[-1] in ("mod", "lib", "main") else names)


def touched(path, text, at, end):
    """The functions of a file, each as its module and its path there, that have something between these places."""
    found = [name for name, start, stop in functions(blanked(text)) if start < end and at < stop]
    return [(module_of(path), name) for name in found]

"""How the program has to end on any bytes: what tools/explain_script says of them, and where it finds them fine the plain
evaluations of scripts and of lists of events."""

import importlib.machinery
import importlib.util
from pathlib import Path

import plain_serial
import plain_world

EXPLAIN_SCRIPT = Path(__file__).resolve().parent / "explain_script"

loader = importlib.machinery.SourceFileLoader("explain_script", str(EXPLAIN_SCRIPT))
spec = importlib.util.spec_from_loader("explain_script", loader)
explain_script = importlib.util.module_from_spec(spec)
loader.exec_module(explain_script)


def refused(fault):
    """The ending of a refused script: status, standard output, standard error."""
    return 2, "", f"calvin: {fault}\n"


def explained(command, data):
    """The verdict of a command on these bytes, as tools/explain_script tells it: `fine` with the script, or a refusal with the
    reason."""
    try:
        script = explain_script.check(data)
    except explain_script.Refused as why:
        return why.fault, str(why)
    if ("events" in script) != (command == "check"):
        return "91 BadScript", "it is a script of the other kind"
    if command in ("sim", "run") and (crowds := list(explain_script.crowds(script))):
        return "91 BadScript", crowds[0]
    return "fine", script


def ending_of(words, script):
    """The ending of a script that is fine, with these words of the command line."""
    if words[0] != "check":
        return plain_serial.ending_of(script, "--scout" in words)[0]
    lines, answers = plain_world.lines_of(script)
    is_expected = script.get("expect", answers) == answers
    return 0 if is_expected else 3, "".join(f"{line}\n" for line in lines), "" if is_expected else "calvin: 100 NotExpected\n"

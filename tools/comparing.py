"""Runs the proved program on many scripts, four at once, compares how each run ends with how it has to end, and counts what came
up: what check_answers, check_runs, check_scripts, check_sims and check_worlds have in common."""

import json
import subprocess
from concurrent.futures import ThreadPoolExecutor

import proved

PROGRAM = proved.program()

# A run that takes longer counts as failed.
MOST_SECONDS = 120

# The script of the worked case `move_across_partitions`, and how a run of it ends.
MOVE = {"partitions": 2, "app": "kv", "epochs": [[{"group": 0, "txns": [
    {"client": 7, "number": 1, "op": ["put", 1, 10]}, {"client": 7, "number": 2, "op": ["move", 1, 2, 4]},
]}]]}  # fmt: skip
MOVED = 0, "0.0 7:1 done\n0.1 7:2 done\nfinished 0\n", ""


def found_by(words, script):
    """How the program ends on a script, or on these bytes: status, standard output, standard error."""
    data = script if isinstance(script, bytes) else json.dumps(script).encode()
    try:
        run = subprocess.run([PROGRAM, *words], input=data, capture_output=True, check=False, timeout=MOST_SECONDS)
    except subprocess.TimeoutExpired:
        return f"it hasn't ended after {MOST_SECONDS} seconds"
    return run.returncode, run.stdout.decode(), run.stderr.decode()


def other_ending(found, ending):
    return None if found == ending else f"not {ending} but {found}"


def failures(runs, difference=other_ending):
    """How many of the runs end otherwise than they have to, each of which is printed with the difference. A run is its name, the
    words of the command line, the script, and the ending. Runs are drawn while others go on."""

    def compared(run):
        name, words, script, ending = run
        return name, difference(found_by(words, script), ending)

    failed = 0
    with ThreadPoolExecutor(4) as pool:
        for name, why in pool.map(compared, runs):
            if why:
                failed += 1
                print(f"{name}: {why}", flush=True)
    return failed


def missing(wanted, counts, told="{} never came"):
    """How many of what is wanted never came, each of which is printed."""
    lost = [it for it in wanted if it not in counts]
    for it in lost:
        print(told.format(it))
    return len(lost)


def ended(runs, failed):
    """The last line, and the status."""
    print(f"{max(runs - failed, 0)} passed, {failed} failed")
    return 1 if failed else 0

"""The Rattle planner's programs, where they stand: `planner` and `replay`.

PLANNER and REPLAY name their commands; else crates/planner/out/planner and crates/replay/out/replay
are asked, if they are there (`rt ci` and `rt run` leave them there). `planner` reads a book on standard input and prints `words N` and the words on the
next line, `refused N` or `too long`; `replay` takes a case file and ends with
`cases N readings M differ K`.
"""

import os
import shlex
import subprocess
import tempfile
from pathlib import Path

from casefile import file_bytes

CRATES = Path(__file__).resolve().parent.parent / "crates"
LONGEST_INPUT, ROOM_WORDS = 65_536, 16_384


def built(name):
    """Where a program stands once it is proved and built."""
    return CRATES / name / "out" / name


def command(variable, name):
    """The command as words, or None if there is no such program."""
    named = os.environ.get(variable)
    if named is not None:
        return shlex.split(named) or None
    return [str(built(name))] if built(name).is_file() else None


def wanted_of_planner(data, answer, words):
    """What the program has to print, given the answer in a room as large as need be."""
    if len(data) > LONGEST_INPUT:
        return "too long"
    if answer[0] == "words" and answer[1] > ROOM_WORDS:
        return "refused 9"
    if answer[0] == "refused":
        return f"refused {answer[1]}"
    return f"words {answer[1]}\n" + " ".join(map(str, words))


def planner_differs(planner, data, answer, words):
    """What the program printed instead of what it has to, or None."""
    done = subprocess.run(planner, input=data, stdout=subprocess.PIPE)
    printed = done.stdout.decode(errors="replace").strip("\n")
    return None if printed == wanted_of_planner(data, answer, words) else printed


def replay_differs(replay, cases):
    """What `replay` printed of these cases, or None if all of them agree."""
    readings = sum(len(case.readings) for case in cases)
    return printed_differs(replay, file_bytes(cases), f"cases {len(cases)} readings {readings} differ 0")


def printed_differs(replay, raw, wanted):
    """What `replay` printed of a case file, or None if it is the one line that is wanted, and it ended well."""
    with tempfile.NamedTemporaryFile(suffix=".case") as listed:
        listed.write(raw)
        listed.flush()
        done = subprocess.run([*replay, listed.name], stdout=subprocess.PIPE, stderr=subprocess.PIPE)
    printed = done.stdout.decode(errors="replace").rstrip("\n")
    if done.returncode != 0:
        return f"{printed}\nended with {done.returncode}: {done.stderr.decode(errors='replace')[:500]}"
    return None if printed == wanted else printed

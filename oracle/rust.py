"""The Rust driver as a partner: one process, asked line by line."""

import subprocess
import sys
from pathlib import Path

HERE = Path(__file__).parent
BUILDS = {
    "release": ([], "target/release/rust-planner"),
    "debug": (["--profile", "dev"], "target/debug/rust-planner"),
    "short-lists": (["--release", "--features", "short-lists", "--target-dir", "target/short-lists"],
                    "target/short-lists/release/rust-planner"),
}


class Panicked(Exception):
    """An assertion of the original fired, or it ran past an array."""


def build(which="release"):
    """Builds the driver and says where it is; leaves with the build's status if it cannot."""
    words, program = BUILDS[which]
    done = subprocess.run([HERE / "build", *words])
    if done.returncode != 0:
        sys.exit(done.returncode)
    return HERE / program


class Rust:
    def __init__(self, which="release"):
        self.process = subprocess.Popen(
            [build(which)], stdin=subprocess.PIPE, stdout=subprocess.PIPE, text=True)

    def ask(self, line):
        self.process.stdin.write(line + "\n")
        self.process.stdin.flush()
        told = self.process.stdout.readline().rstrip("\n")
        if told.startswith("panicked"):
            raise Panicked(told)
        if not told or told.startswith("unreadable"):
            raise RuntimeError(f"the Rust driver: {told or 'gone'}")
        return told

    def plan(self, data):
        """The words of the book's tree, as a list."""
        return [int(word) for word in self.ask(f"plan {data.hex()}").split()[2:]]

    def walk(self, reading):
        """Walks the tree of the book planned last."""
        kinds = bytes(reading.kinds).hex() or "-"
        told = self.ask(f"walk {kinds} {listed(reading.numbers)} {listed(reading.identities)}")
        name, *numbers = told.split()
        return (name, *map(int, numbers))

    def nanoseconds(self, data, count):
        """How long planning a book so many times takes, reading its tables included."""
        return int(self.ask(f"time {count} {data.hex()}").split()[1])

    def sets(self, calls):
        """Answers of set calls on an empty store, and the store: (rank, representative, members)."""
        asked = " ".join(",".join(map(str, call)) for call in calls)
        answers, _, store = self.ask(f"sets {asked}").partition("store")
        return [read_answer(answer) for answer in answers.split()], read_store(store)


def listed(numbers):
    return ",".join(map(str, numbers)) or "-"


def read_answer(text):
    if text.startswith("["):
        return tuple(int(member) for member in text[1:-1].split(",") if member)
    known = {"merged": None, "none": None, "true": True, "false": False}
    return known[text] if text in known else int(text)


def read_store(text):
    parts = [one.split(":") for one in text.split()]
    return [(int(rank), int(root), tuple(map(int, members.split(","))))
            for rank, root, members in parts]

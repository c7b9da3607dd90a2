"""Runs of a program of which one allocation is refused."""
import itertools
import os
import pathlib
import subprocess
import sys

HERE = pathlib.Path(__file__).resolve().parent


class Program:
    """A program with its words, and the folder in which it is run."""

    def __init__(self, path, folder, *words):
        self.words, self.folder, self.numbers, self.runs = [path, *words], folder, itertools.count(1), 0
        self.shim = folder / "refuse.so"
        subprocess.run(["cc", "-shared", "-fPIC", "-O1", "-o", self.shim, HERE / "refuse.c", "-ldl", "-lpthread"], check=True)

    def run(self, lines, at, **more):
        """Its lines, its status, what it told of faults, and whether an allocation was refused."""
        self.runs = next(self.numbers)
        log = self.folder / f"refused-{self.runs}"
        env = dict(os.environ, LD_PRELOAD=str(self.shim), REFUSE_AT=str(at), REFUSE_LOG=str(log), **more)
        text = "".join(f"{it}\n" for it in lines)
        try:
            done = subprocess.run(self.words, input=text, env=env, capture_output=True, text=True, timeout=60)
        except subprocess.TimeoutExpired:
            sys.exit(f"allocation {at} of a run was refused, and it does not end: {lines}")
        was_refused = log.exists()
        log.unlink(missing_ok=True)
        return done.stdout.splitlines(), done.returncode, done.stderr, was_refused

"""Runs the program with a seed that is chosen, and counts its instructions."""
import os
import re
import subprocess
import sys

HERE = os.path.dirname(os.path.realpath(__file__))
SEED = 7  # of runs that are compared


class OneSeed:
    """The library that stands in the place of the random source, built in a folder."""

    def __init__(self, folder):
        self.library = os.path.join(folder, "one_seed.so")
        subprocess.run(["cc", "-shared", "-fPIC", "-O1", "-o", self.library, os.path.join(HERE, "one_seed.c")], check=True)

    def environment(self, seed):
        return {**os.environ, "LD_PRELOAD": self.library, "ONE_SEED": str(seed)}

    def instructions(self, words, seed, stdin=os.devnull):
        """How many instructions the program takes. It has to end with status 0."""
        counted = ["valgrind", "--tool=cachegrind", "--cache-sim=no", "--cachegrind-out-file=/dev/null", *words]
        with open(stdin, "rb") as lines:
            told = subprocess.run(counted, stdin=lines, stdout=subprocess.DEVNULL, stderr=subprocess.PIPE, env=self.environment(seed))
        number = re.search(rb"I\s+refs:\s+([\d,]+)", told.stderr)
        if told.returncode != 0 or number is None:
            sys.exit(told.stderr.decode(errors="replace"))
        return int(number.group(1).replace(b",", b""))

    def time(self, words, seed):
        """The processor's time in seconds. It has to end with status 0."""
        before = os.times()
        subprocess.run(words, stdin=subprocess.DEVNULL, stdout=subprocess.DEVNULL, check=True, env=self.environment(seed))
        after = os.times()
        return after.children_user + after.children_system - before.children_user - before.children_system

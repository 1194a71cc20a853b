"""Processes that are run and timed."""
import os
import statistics
import subprocess
import time
from dataclasses import dataclass, field
from typing import NamedTuple


class Run(NamedTuple):
    """The seconds of the wall clock, the peak memory in MB of 2^20 bytes, and the status."""
    seconds: float
    memory: float
    status: int


def brief_value(words):
    """The value that a brief line tells, as a peer writes it."""
    if words[0] == "none":
        return "none"
    if words[0] == "best":
        return " ".join(words[3:])
    return " ".join([words[2], *words[4:]])


@dataclass
class Timed:
    """A command, the file that it writes to, the status that it should end with, and its runs."""
    words: list
    out: str
    status: int = 0
    runs: list = field(default_factory=list)

    def run(self):
        """Runs the command once more."""
        with open(self.out, "wb") as out:
            start = time.perf_counter()
            process = subprocess.Popen(self.words, stdout=out, stderr=subprocess.DEVNULL)
            _, ended, usage = os.wait4(process.pid, 0)
            seconds = time.perf_counter() - start
        process.returncode = os.waitstatus_to_exitcode(ended)
        self.runs.append(Run(seconds, usage.ru_maxrss / 1024, process.returncode))

    def seconds(self):
        """The median of the runs."""
        return statistics.median(run.seconds for run in self.runs)

    def memory(self):
        """The most of the runs."""
        return max(run.memory for run in self.runs)

    def size(self):
        """How many bytes it wrote."""
        return os.path.getsize(self.out)

    def wrong_status(self):
        """A status that a run ended with and shouldn't have, if there is one."""
        return next((run.status for run in self.runs if run.status != self.status), None)

    def ended(self):
        """Whether each run ended as it should."""
        return self.wrong_status() is None

    def value(self):
        """The value that it wrote, in documents or as a peer: of a ranking the number of answers,
        the first value and the last one, of several documents one value after the other."""
        values, answers = [], []
        with open(self.out, encoding="ascii", errors="replace") as out:
            for line in out:
                word, _, rest = line.strip().partition(" ")
                if word == "value" or (word, rest) == ("status", "none"):
                    values.append(rest)
                elif word in ("best", "none", "ranked"):
                    values.append(brief_value(line.split()))
                elif word == "answer":
                    answers.append(rest)
        return f"{len(answers)} {answers[0]} {answers[-1]}" if answers else " ".join(values)

"""The cases that table.py times: requests for files that instance.py and long_file.py make."""
import os
import random
import subprocess
import sys
from typing import NamedTuple

HERE = os.path.dirname(os.path.realpath(__file__))


class Case(NamedTuple):
    """A request, and the script that makes its file, with the arguments of the script. A request to
    make a file has no maker, and its numbers in place of an objective."""
    command: str
    objective: str
    maker: str = ""
    options: str = ""
    edits: int = 0  # how many changes the script has, each with an answer after it
    greatest: int = 0  # the greatest cost that it gives a cell
    status: int = 0  # that the request should end with

    @property
    def form(self):
        """The format of the file."""
        return next((word for word in self.maker.split() if word in ("asn", "rect")), "square")

    @property
    def request(self):
        """The request as words, without its files and their format."""
        return " ".join(filter(None, (self.command, self.objective, self.options)))

    @property
    def title(self):
        """What the file is."""
        if not self.maker:
            return "-"
        script, kind, *rest = self.maker.split()
        if script == "long_file.py":
            return f"{kind}, {rest[0]} MiB, refused at the end"
        size = f"{kind}, {rest[1]} × {rest[2]}" + ", asn" * (rest[0] == "asn")
        return size + f", {self.edits} edits" * (self.command == "edit")

    def write(self, seed, file, script):
        """Writes the file, and for edits the script, which gives random cells random costs."""
        if not self.maker:
            return
        maker, *arguments = self.maker.split()
        if maker == "instance.py":
            arguments.append(str(seed))
        with open(file, "w", encoding="ascii") as out:
            words = [sys.executable, os.path.join(HERE, maker), *arguments]
            subprocess.run(words, stdout=out, check=True)
        if self.command == "edit":
            rows, columns = map(int, arguments[2:4])
            chance = random.Random(seed)
            with open(script, "w", encoding="ascii") as out:
                out.write("solve\n")
                for _ in range(self.edits):
                    cell = f"{chance.randint(1, rows)} {chance.randint(1, columns)}"
                    out.write(f"cost {cell} {chance.randint(0, self.greatest)}\nsolve\n")


def square(kind, side):
    return f"instance.py {kind} square {side} {side}"


def few_cases(side, edits):
    """A case for each command and objective."""
    return [
        Case("make", f"7 {side}"),
        Case("solve", "sum", square("uniform", side)),
        Case("solve", "sum-max", square("uniform", side)),
        Case("solve", "pair", square("pair", side // 2)),
        Case("solve", "capped=1000000000000", square("uniform", side)),
        Case("solve", "bottleneck", square("uniform", side)),
        Case("solve", "bottleneck-max", square("uniform", side)),
        Case("solve", "time-cost", square("pair", side // 2)),
        Case("solve", "balanced", square("middle", side)),
        Case("solve", "lex", square("middle", side // 5)),
        Case("rank", "sum", square("narrow", side // 5), "--count 100"),
        Case("edit", "sum", square("narrow", side // 2), edits=edits, greatest=100),
    ]


def more_cases(side, edits):
    """Other kinds of instances, other shapes, and long files that are refused at their end."""
    shared = [
        *((square(kind, side), "") for kind in ("narrow", "distance", "product")),
        (f"instance.py uniform rect {side // 2} {side}", ""),
        (f"instance.py uniform rect {side} {side // 4}", "--each 4"),
        (square("uniform", side), f"--place {side // 10}"),
        (square("uniform", side), "--each 2"),
        (f"instance.py sparse asn {side} {side}", ""),
    ]
    return [
        *(Case("solve", objective, *case)
          for objective in ("sum", "bottleneck") for case in shared),
        *(Case("solve", "balanced", square(kind, side)) for kind in ("narrow", "near")),
        *(Case("solve", "lex", square(kind, side // 5)) for kind in ("narrow", "near")),
        *(Case("rank", "sum", square(kind, side // 5), "--count 100")
          for kind in ("uniform", "product")),
        Case("solve", "sum", square("narrow", side // 2)),
        *(Case("edit", objective, square("uniform", side // 2), edits=edits, greatest=10**9)
          for objective in ("sum", "sum-max", "bottleneck")),
        Case("solve", "bottleneck", "long_file.py asn 64", status=3),
        Case("solve", "bottleneck", "long_file.py square 256", status=3),
        Case("check", "bottleneck", "long_file.py documents 256", status=5),
    ]

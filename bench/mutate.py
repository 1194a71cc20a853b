#!/usr/bin/env python3
"""Compares `asg` with a second judge on files that are changed at random.

    bench/mutate.py --asg PROGRAM [--tries N] [--seed S] [--minutes M] [--only TRY]

A try makes a small instance, and maybe a script, from the seed and its number, has the program
solve it, judges what it wrote, and then changes one of the files and compares status and text of
`check` with those of judge.py; where the instance was changed, `solve` too. What differs, a status
that isn't in the table, and an end by a signal are told with the files, and the status is then 1.
"""
import argparse
import collections
import itertools
import os
import random
import signal
import sys
import tempfile
import time

import judge
from judge_instances import Refused, due_instances, read_instance, read_script
from mutations import instance, mutated, script

OBJECTIVES = ("sum", "sum-max", "pair", "capped", "bottleneck", "bottleneck-max", "time-cost",
              "balanced", "lex")
LARGEST = 12  # the side up to which what the program writes is judged
SECONDS = 60


class Runner:
    """Runs words in a folder of a few files, which are written anew where they change."""

    def __init__(self, folder):
        self.folder, self.texts, self.child = folder, {}, 0
        signal.signal(signal.SIGALRM, lambda *_: os.kill(self.child, signal.SIGKILL))

    def written(self, name, text):
        """The name of a file with the text."""
        path = os.path.join(self.folder, name)
        if self.texts.get(name) != text:
            with open(path, "wb") as out:
                out.write(text)
            self.texts[name] = text
        return path

    def run(self, words):
        """The status and the bytes written; what takes longer than SECONDS is killed."""
        out = os.path.join(self.folder, "out")
        opened = (os.POSIX_SPAWN_OPEN, 1, out, os.O_WRONLY | os.O_CREAT | os.O_TRUNC, 0o600)
        self.child = os.posix_spawn(words[0], words, {}, file_actions=[opened])
        signal.alarm(SECONDS)
        _, ended = os.waitpid(self.child, 0)
        signal.alarm(0)
        with open(out, "rb") as text:
            return os.waitstatus_to_exitcode(ended), text.read()


class Try:
    """One request, its files and its options."""

    def __init__(self, asked, number):
        self.asked, self.chance = asked, random.Random(f"{asked.seed} {number}")
        self.command = self.chance.choice(("solve", "solve", "rank", "edit"))
        words = OBJECTIVES if self.command == "solve" else OBJECTIVES[:7]
        self.objective = self.chance.choice(words)
        if self.objective == "capped":
            self.objective += f"={self.chance.choice((1, 5, 20, 10**9, 10**12))}"
        self.form = self.chance.choice(("square", "square", "rect", "asn"))
        self.texts = {"instance": instance(self.chance, self.form, self.objective)}
        self.options = self.some_options()
        self.faults = []

    def some_options(self):
        found = {"form": self.form}
        if self.command == "rank":
            found["count"] = self.chance.choice((1, 2, 3, 5, 9))
        elif self.chance.random() < 0.3:
            found["place"] = self.chance.choice((1, 1, 2, 3))
        if self.chance.random() < 0.3:
            found["each"] = self.chance.choice((1, 2, 3))
        return found

    def words(self):
        """The options as words."""
        return [f"--{name.replace('form', 'format')}={value}"
                for name, value in self.options.items()]

    def run(self, command, files, script_file=False):
        """The status and the bytes of a command for these files."""
        names = [self.asked.runner.written(name, self.texts[name]) for name in files]
        more = [f"--script={names.pop()}"] if script_file else []
        words = [self.asked.asg, command, self.objective, *names, *self.words(), *more]
        status, text = self.asked.runner.run(words)
        if not 0 <= status <= 6:
            self.faults.append((words, status, text))
        return status, text

    def instance(self):
        return read_instance(self.texts["instance"], self.form, self.objective,
                             self.options.get("place", 0), self.options.get("each", 1))

    def answer(self):
        """Has the program answer, and judges it."""
        files = ["instance", "script"][:1 + (self.command == "edit")]
        status, self.texts["answer"] = self.run(self.command, files)
        wanted = self.judged_answer(status)
        if wanted != (status, self.texts["answer"].decode()):
            self.faults.append((self.command, status, self.texts["answer"], wanted))
        return status

    def judged_answer(self, status):
        """What the program should have ended with, where it wrote documents."""
        text = self.texts["answer"].decode()
        try:
            inst = self.instance()
            if self.command == "edit":
                due_instances(inst, self.objective, read_script(self.texts["script"]))
        except Refused as refused:
            return refused.status, refused.line
        is_none = self.command != "edit" and "status none\n" in text
        if inst.side() <= LARGEST and not self.check_judged()[1].startswith("yes"):
            return "a document that certifies", self.check_judged()
        is_few = len(inst.rows) <= 4 and self.command == "solve"
        if is_few and not is_best(inst, self.objective, text):
            return "a best choice", text
        return int(is_none), text

    def check_files(self):
        return ["instance", "answer", "script"][:2 + (self.command == "edit")]

    def check_judged(self):
        files = [self.texts[name] for name in self.check_files()]
        return judge.checked(files, self.objective, **self.options)

    def check(self):
        """Compares `check` with the judge."""
        status, text = self.run("check", self.check_files(), self.command == "edit")
        judged = self.check_judged()
        if judged != (status, text.decode(errors="replace")):
            self.faults.append(("check", status, text, judged))
        return text.split(b" ")[0].decode()

    def change(self):
        """Changes a file, or the options of a check, and tells which."""
        names = self.check_files() + ["answer"] * 3
        name = self.chance.choice(names + ["options"] * (self.chance.random() < 0.3))
        if name != "options":
            self.texts[name] = mutated(self.chance, self.texts[name])
        elif "count" in self.options:
            self.options["count"] += self.chance.choice((-1, 1)) if self.options["count"] > 1 else 1
        else:
            option = self.chance.choice(("place", "each"))
            self.options[option] = self.chance.choice((1, 2, 3, 4))
        return name

    def is_small(self):
        """Whether the instance, as it is now, is one that the judge takes."""
        try:
            return self.instance().side() <= LARGEST
        except Refused:
            return True


def choices_of(inst):
    """All valid choices."""
    columns = [[None, *(j for j in range(len(inst.columns)) if inst.is_live(i, j))]
               for i in range(len(inst.rows))]
    for taken in itertools.product(*columns):
        choice = {i: j for i, j in enumerate(taken) if j is not None}
        if judge.is_valid(inst, choice):
            yield choice


def is_best(inst, objective, text):
    """Whether a document of `solve` has the value of the best choices, or says that none is
    there."""
    values = [judge.value(objective, judge.costs_of(inst, choice)) for choice in choices_of(inst)]
    if not values:
        return "status none\n" in text
    is_greatest = judge.word_of(objective) in ("sum-max", "bottleneck-max")
    best = max(values) if is_greatest else min(values)
    shown = {tuple: ":", list: " "}.get(type(best))
    return f"\nvalue {shown.join(map(str, best)) if shown else best}\n" in text


def tried(asked, number, counts):
    """One try, and what went wrong."""
    it = Try(asked, number)
    if it.command == "edit":
        inst = read_instance(it.texts["instance"], it.form, "sum")
        it.texts["script"] = script(it.chance, inst.rows, inst.columns, it.objective)
    counts[f"{it.command} {it.answer()}"] += 1
    for _ in range(asked.changes):
        texts, options = dict(it.texts), dict(it.options)
        changed = it.change()
        if it.is_small():
            counts[f"{changed} changed, check {it.check()}"] += 1
            if changed in ("instance", "script"):
                counts[f"{changed} changed, {it.command} {it.answer()}"] += 1
        if it.faults:
            break
        it.texts, it.options = texts, options
    return it


def report(it, number):
    print(f"try {number}: {it.command} {it.objective} {it.options}", flush=True)
    for fault in it.faults:
        print("  ", *fault)
    for name, text in it.texts.items():
        print(f"-- {name}\n{text!r}")


def arguments():
    parser = argparse.ArgumentParser(description=__doc__.split("\n", maxsplit=1)[0])
    parser.add_argument("--asg", required=True, metavar="PROGRAM")
    parser.add_argument("--tries", type=int, default=100000, help="how many changed files")
    parser.add_argument("--changes", type=int, default=10, help="changed files for an instance")
    parser.add_argument("--seed", default="1")
    parser.add_argument("--minutes", type=float, default=10**6, help="after which it ends")
    parser.add_argument("--only", type=int, help="one instance")
    return parser.parse_args()


def main():
    asked = arguments()
    counts, wrong = collections.Counter(), 0
    numbers = range(-(-asked.tries // asked.changes)) if asked.only is None else [asked.only]
    memory = "/dev/shm" if os.path.isdir("/dev/shm") else None
    with tempfile.TemporaryDirectory(dir=memory) as folder:
        asked.runner = Runner(folder)
        last = time.monotonic() + 60 * asked.minutes
        for number in itertools.takewhile(lambda _: time.monotonic() < last, numbers):
            it = tried(asked, number, counts)
            if it.faults:
                wrong += 1
                report(it, number)
    for what, count in sorted(counts.items()):
        print(f"{count:8} {what}")
    changed = sum(n for what, n in counts.items() if "changed, check" in what)
    print(f"{changed} changed files, {wrong} mismatches")
    sys.exit(wrong > 0)


if __name__ == "__main__":
    main()

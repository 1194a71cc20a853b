#!/usr/bin/env python3
"""Runs `asg` at the edges of a real system, and prints one Markdown table.

    bench/edges.py --asg PROGRAM

A line has what is at the edge, the command, the status, or the signal by which the run ended, and
what was written. Right statuses stand beside the cases; the exit status is 1 where another came.
"""
import argparse
import os
import resource
import signal
import subprocess
import sys
import tempfile
import threading
import time

from refused_memory import build

THREE = b"3\n4 1 3\n2 0 5\n3 2 2\n"
LONGEST = 268435456
INTERRUPTS = r"""
#define _GNU_SOURCE
#include <dlfcn.h>
#include <errno.h>
#include <stdlib.h>
#include <unistd.h>
static int reads, writes;
ssize_t read(int f, void *p, size_t n) {
    ssize_t (*real)(int, void *, size_t) = dlsym(RTLD_NEXT, "read");
    const char *kind = getenv("EDGE");
    reads++;
    if (kind && kind[0] == 'i' && reads % 2) { errno = EINTR; return -1; }
    if (kind && kind[0] == 'e' && reads == 2) { errno = EIO; return -1; }
    return real(f, p, kind && kind[0] == 's' && n > 3 ? 3 : n);
}
ssize_t write(int f, const void *p, size_t n) {
    ssize_t (*real)(int, const void *, size_t) = dlsym(RTLD_NEXT, "write");
    const char *kind = getenv("EDGE");
    writes++;
    if (kind && kind[0] == 'i' && writes % 2) { errno = EINTR; return -1; }
    if (kind && kind[0] == 'f' && writes == 2) { errno = EIO; return -1; }
    if (kind && kind[0] == 'z' && writes == 2) return 0;
    return real(f, p, kind && kind[0] == 's' && n > 3 ? 3 : n);
}
"""


class Edges:
    """Runs a program in a folder with files."""

    def __init__(self, program, folder):
        self.program, self.folder = program, folder
        self.is_wrong = False
        self.shim = build("cc", folder, INTERRUPTS)
        self.file("three", THREE)
        self.file("script", b"solve\n" * 3000)

    def name(self, name):
        return os.path.join(self.folder, name)

    def file(self, name, text):
        with open(self.name(name), "wb") as out:
            out.write(text)

    def show(self, what, words, status, written, due):
        """Prints a line."""
        self.is_wrong |= status not in due
        is_short = len(written) <= 60 and written.count(b"\n") <= 1
        shown = written.decode().strip() if is_short else f"{len(written):,} bytes"
        told = signal.Signals(-status).name if status < 0 else status
        words = " ".join(words).replace("x" * 5000, "xx..")
        wrong = "" if status in due else f" (due: {due})"
        print(f"| {what} | `{words}` | {told}{wrong} | {shown} |", flush=True)

    def run(self, what, words, due, **how):
        """Runs the words with standard output in a pipe that is read to its end, or as `how` says,
        and shows what came."""
        how.setdefault("stdout", subprocess.PIPE)
        ended = subprocess.run([self.program, *words], cwd=self.folder, stderr=subprocess.PIPE,
                               timeout=600, check=False, **how)
        self.show(what, words, ended.returncode, ended.stdout or b"", due)

    def shimmed(self, what, kind, words, due):
        self.run(what, words, due, env={"LD_PRELOAD": self.shim, "EDGE": kind})


SOLVE = ["solve", "sum", "three"]
MAKE = ["make", "7", "200"]
EDIT = ["edit", "sum", "three", "script"]


def outputs(edges):
    """Where standard output takes no more."""
    for words in (SOLVE, MAKE, EDIT, ["solve", "sum"]):
        code = 'exec "$0" "$@" >&-'
        ended = subprocess.run(["bash", "-c", code, edges.program, *words], cwd=edges.folder,
                               timeout=60, check=False)
        edges.show("standard output is closed", words, ended.returncode, b"",
                   (8,))
    for words in (SOLVE, MAKE, EDIT):
        with open("/dev/full", "wb") as full:
            edges.run("the disk is full (/dev/full)", words, (8,), stdout=full)
        early_close(edges, words)
        with open(edges.name("three"), "rb") as only_read:
            edges.run("standard output may only be read", words, (8,), stdout=only_read)
    limited(edges)


def early_close(edges, words):
    """A pipe whose reader takes ten bytes and closes; before the first write, or after."""
    process = subprocess.Popen([edges.program, *words], cwd=edges.folder, stdout=subprocess.PIPE)
    taken = os.read(process.stdout.fileno(), 10)
    process.stdout.close()
    status = process.wait(60)
    due = (0, 8) if words == SOLVE else (8,)
    edges.show("a pipe that closes after ten bytes", words, status, taken, due)
    reader, writer = os.pipe()
    os.close(reader)
    with os.fdopen(writer, "wb") as pipe:
        edges.run("a pipe that is closed", words, (8,), stdout=pipe)


def limited(edges):
    """A limit on the length of files that are written."""
    for words in (SOLVE, MAKE, EDIT):
        for is_ignored in (False, True):
            def limit():
                signal.signal(signal.SIGXFSZ, signal.SIG_IGN if is_ignored else signal.SIG_DFL)
                resource.setrlimit(resource.RLIMIT_FSIZE, (100, 100))
            what = "a file may have 100 bytes, SIGXFSZ " + "not " * (not is_ignored) + "ignored"
            with open(edges.name("out"), "wb") as out:
                ended = subprocess.run([edges.program, *words], cwd=edges.folder, stdout=out,
                                       preexec_fn=limit, timeout=60, check=False)
            with open(edges.name("out"), "rb") as out:
                due = 8 if is_ignored else -signal.SIGXFSZ
                edges.show(what, words, ended.returncode, out.read(), (due,))


def cut_texts(edges):
    """Short texts, cut at each length in turn: a prefix of so many bytes, and status 8."""
    edges.file("short", b"solve\ncost 1 2 9\nsolve\n")
    for words in (SOLVE, ["edit", "sum", "three", "short"], ["solve", "sum"], ["make", "7", "3"]):
        whole = subprocess.run([edges.program, *words], cwd=edges.folder, check=False,
                               stdout=subprocess.PIPE).stdout
        cuts = [cut(edges, words, length) for length in range(len(whole))]
        right = sum(cut == (8, whole[:length]) for length, cut in enumerate(cuts))
        edges.show(f"cut at each of {len(whole)} lengths, {right} right", words,
                   {status for status, _ in cuts}.pop(), b"", (8,))
        edges.is_wrong |= right != len(whole)


def cut(edges, words, length):
    """The status and what is written where a file may have so many bytes."""
    def limit():
        signal.signal(signal.SIGXFSZ, signal.SIG_IGN)
        resource.setrlimit(resource.RLIMIT_FSIZE, (length, length))
    with open(edges.name("out"), "w+b") as out:
        ended = subprocess.run([edges.program, *words], cwd=edges.folder, stdout=out,
                               preexec_fn=limit, timeout=60, check=False)
        out.seek(0)
        return ended.returncode, out.read()


def fetches(edges):
    """Each file of a request that isn't there, in turn."""
    edges.file("answer", b"")
    for words in (["edit", "sum", "three", "script"],
                  ["check", "sum", "three", "answer", "--script", "script"]):
        for at, word in enumerate(words):
            if word in ("three", "answer", "script"):
                edges.run("a file that isn't there", words[:at] + ["absent"] + words[at + 1:], (7,))


def names(edges):
    """What a name may stand for."""
    os.mkdir(edges.name("folder"))
    os.symlink("loop", edges.name("loop"))
    os.symlink("three", edges.name("link"))
    edges.file("empty", b"")
    for what, name, due in (
            ("a folder", "folder", 7), ("a name that isn't there", "absent", 7),
            ("a link to itself", "loop", 7), ("a link to the file", "link", 0),
            ("a file as a folder", "three/x", 7), ("a name of 5,000 letters", "x" * 5000, 7),
            ("an empty file", "empty", 3), ("/dev/null", "/dev/null", 3),
            ("/dev/zero, which has no end", "/dev/zero", 10),
            ("/proc/self/mem", "/proc/self/mem", 7), ("-", "-", 7),
            ("an empty name", "", 7)):
        edges.run(what, ["solve", "sum", name], (due,))
    ended = subprocess.run([edges.program.encode(), b"solve", b"sum", b"\xff"], cwd=edges.folder,
                           stdout=subprocess.PIPE, check=False)
    edges.show("a word that isn't UTF-8", ["solve", "sum", "\\xff"], ended.returncode, ended.stdout,
               (2,))
    edges.run("/dev/stdin with the file", ["solve", "sum", "/dev/stdin"], (0,), input=THREE)
    edges.run("/dev/stdin, empty", ["solve", "sum", "/dev/stdin"], (3,), input=b"")
    edges.run("/dev/stdin for both files", ["check", "sum", "/dev/stdin", "/dev/stdin"], (5,),
              input=THREE)
    code = 'exec "$0" solve sum /dev/stdin <&-'
    ended = subprocess.run(["bash", "-c", code, edges.program], stdout=subprocess.PIPE, check=False)
    edges.show("/dev/stdin, closed", ["solve", "sum", "/dev/stdin"], ended.returncode, ended.stdout,
               (7,))


def lengths(edges):
    """Files at the limit, with holes."""
    for what, length, due in (("a file of 268,435,456 bytes", LONGEST, 3),
                              ("a file of one more", LONGEST + 1, 10)):
        edges.file("long", b"3\n")
        os.truncate(edges.name("long"), length)
        edges.run(what, ["solve", "sum", "long"], (due,))
        os.remove(edges.name("long"))


def pipes(edges):
    """FIFOs, and a file that grows."""
    os.mkfifo(edges.name("fifo"))

    def slowly(mode, pieces):
        with open(edges.name("fifo" if mode == "wb" else "growing"), mode) as out:
            for piece in pieces:
                out.write(piece)
                out.flush()
                time.sleep(0.02)
    for what, pieces, due in (
            ("a FIFO, byte by byte", [THREE[i:i + 1] for i in range(len(THREE))], 0),
            ("a FIFO that closes early", [b"3\n4 1"], 3), ("a FIFO that is empty", [], 3)):
        thread = threading.Thread(target=slowly, args=("wb", pieces))
        thread.start()
        edges.run(what, ["solve", "sum", "fifo"], (due,))
        thread.join()
    edges.file("growing", THREE)
    thread = threading.Thread(target=slowly, args=("ab", [b" \n" * 100000] * 20))
    thread.start()
    edges.run("a file that grows", ["solve", "sum", "growing"], (0,))
    thread.join()
    grow_without_end(edges)
    stop_and_go(edges)


def grow_without_end(edges):
    """A file that is longer at each read, as when a log is written."""
    is_done = threading.Event()

    def feed():
        with open(edges.name("growing"), "ab") as out:
            while not is_done.is_set() and out.tell() < LONGEST + (1 << 24):
                out.write(b" " * (1 << 22))
                out.flush()
    thread = threading.Thread(target=feed)
    thread.start()
    edges.run("a file that grows fast, maybe past the limit", ["solve", "sum", "growing"], (0, 10))
    is_done.set()
    thread.join()
    os.remove(edges.name("growing"))


def stop_and_go(edges):
    """Stopped and continued while it waits for a FIFO."""
    words = ["solve", "sum", "fifo"]
    process = subprocess.Popen([edges.program, *words], cwd=edges.folder, stdout=subprocess.PIPE)
    with open(edges.name("fifo"), "wb") as out:
        for piece in (THREE[:5], THREE[5:]):
            for sent in (signal.SIGSTOP, signal.SIGCONT, signal.SIGWINCH):
                process.send_signal(sent)
                time.sleep(0.05)
            out.write(piece)
            out.flush()
    written, _ = process.communicate(timeout=60)
    edges.show("stopped and continued while it reads", words, process.returncode, written, (0,))


def calls(edges):
    """Calls of the system that end early or fail."""
    edges.shimmed("each other read and write is interrupted (EINTR)", "i", SOLVE, (0,))
    edges.shimmed("each other read and write is interrupted (EINTR)", "i", MAKE, (0,))
    edges.shimmed("reads and writes of three bytes at most", "s", SOLVE, (0,))
    edges.shimmed("the second read fails (EIO)", "e", SOLVE, (7,))
    edges.shimmed("the second write fails (EIO)", "f", MAKE, (8,))
    edges.shimmed("the second write takes nothing", "z", MAKE, (8,))


def main():
    parser = argparse.ArgumentParser(description="Runs asg at the edges of a real system.")
    parser.add_argument("--asg", required=True, metavar="PROGRAM")
    asked = parser.parse_args()
    print("| Edge | Command | Status | Written |\n|---|---|---|---|")
    with tempfile.TemporaryDirectory() as folder:
        edges = Edges(os.path.realpath(asked.asg), folder)
        for part in (outputs, cut_texts, names, fetches, lengths, pipes, calls):
            part(edges)
    sys.exit(edges.is_wrong)


if __name__ == "__main__":
    main()

"""What trials stand on: runs of plan in this process, files in a folder of their own, and counting."""
import contextlib
import io
import os
import stat
import sys
import tempfile
from dataclasses import dataclass

from planning import commands, program


@dataclass
class Shown:
    """How a run of plan ended, and what it wrote."""

    status: int
    out: str
    err: str


def run(*words):
    """Runs plan with these words, here and now."""
    out, err = (io.TextIOWrapper(io.BytesIO(), encoding='utf-8', newline='\n') for _ in range(2))
    with contextlib.redirect_stdout(out), contextlib.redirect_stderr(err):
        try:
            status = commands.main([str(word) for word in words])
        except SystemExit as ended:
            status = ended.code or 0
    for stream in (out, err):
        stream.flush()
    return Shown(status, out.buffer.getvalue().decode(), err.buffer.getvalue().decode())


class Bench:
    """A folder for the files of trials, the program asg, and how many trials passed and failed."""

    def __init__(self, asg, seed, count):
        self.asg, self.seed, self.count = asg, seed, count
        self.passed = self.failed = 0
        program.FIRST_TICK = 3600  # on a slow machine too, nothing is told of the time
        self.room = tempfile.TemporaryDirectory(prefix='plan-trials-')
        self.folder = self.room.name

    def file(self, name, text):
        """Writes a file, of text or bytes, and returns its path."""
        path = os.path.join(self.folder, name)
        with open(path, 'wb') as file:
            file.write(text if isinstance(text, bytes) else text.encode())
        return path

    def script(self, name, text, by=sys.executable):
        """Writes a program in Python, or what another one is to run, and returns its path."""
        path = self.file(name, f'#!{by}\n{text}')
        os.chmod(path, os.stat(path).st_mode | stat.S_IXUSR)
        return path

    def plan(self, *words):
        """Runs plan over the program asg."""
        return run(*words, '--asg', self.asg)

    def holds(self, is_so, name, *more):
        """Counts a trial; of one that failed all is told."""
        if is_so:
            self.passed += 1
            return
        self.failed += 1
        print(f'FAILED: {name}', *more, sep='\n  ', flush=True)

    def close(self):
        self.room.cleanup()

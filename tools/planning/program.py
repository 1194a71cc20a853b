"""The program asg: where it is, runs of it, and what its ending means."""
import os
import shutil
import subprocess
import sys
import tempfile
import threading
from dataclasses import dataclass

from .refusals import STATUSES
from .words import Wrong

TOP = os.path.dirname(os.path.dirname(os.path.dirname(os.path.realpath(__file__))))
BUILT = os.path.join(TOP, 'crates', 'asg', 'out', 'asg')
FIRST_TICK, NEXT_TICKS = 2, 5
KEPT = 'kept-by-plan.txt'
KEPT_SAYS = 'The files that tools/plan gave to asg, and what asg answered. They are written over where this folder is '
KEPT_SAYS += 'kept again.\n'


def program_path(named):
    """The program: named by --asg, or by the variable ASG, or as it was built in this clone."""
    path, told = (named, '--asg') if named else (os.environ.get('ASG'), 'the variable ASG')
    if not path:
        if not os.path.isfile(BUILT):
            raise Wrong(f'the program asg is not built: {BUILT} is not there. Build it by ./asg in the folder {TOP}, '
                        'as README.md says, or name another one by --asg PROGRAM or the variable ASG')
        return BUILT
    found = shutil.which(path)
    if not found or os.path.isdir(found):
        raise Wrong(f'{told} names {path}, which is no program')
    return os.path.abspath(found)


class Ticks:
    """Says on standard error that something is still under way, where it takes more than two seconds."""

    def __init__(self, told):
        self.told, self.stop = told, threading.Event()
        self.thread = threading.Thread(target=self.tick, daemon=True)

    def tick(self):
        seconds = FIRST_TICK
        while not self.stop.wait(NEXT_TICKS if seconds > FIRST_TICK else FIRST_TICK):
            print(f'plan: {self.told}, {seconds} s', file=sys.stderr, flush=True)
            seconds += NEXT_TICKS

    def __enter__(self):
        self.thread.start()

    def __exit__(self, *_):
        self.stop.set()
        self.thread.join()


@dataclass
class Run:
    """How a run of asg ended, and what it wrote."""

    status: int
    text: str


def is_kept_name(path, keep):
    """Whether a path is that of a file that may be kept in a folder."""
    folder, name = os.path.split(os.path.realpath(path))
    return folder == os.path.realpath(keep) and (name == KEPT or name.endswith(('.rect', '.document', '.script')))


def made_folder(keep):
    """The folder to be kept, made where it isn't there. One with other files in it is refused, so that none is written
    over: one that files were kept in before has a note that says so."""
    os.makedirs(keep, exist_ok=True)
    found = os.listdir(keep)
    if found and KEPT not in found:
        raise Wrong(f'--keep {keep}: the folder has other files; name one that is new or empty')
    with open(os.path.join(keep, KEPT), 'w', encoding='utf-8') as file:
        file.write(KEPT_SAYS)
    return keep


class Program:
    """The program, and the folder in which the files lie that it is given and that it gives."""

    def __init__(self, path, keep):
        self.path, self.keep = path, keep
        try:
            self.folder = made_folder(keep) if keep else tempfile.mkdtemp(prefix='plan-')
        except OSError as error:
            raise Wrong(f'{error.filename or tempfile.gettempdir()}: {error.strerror}') from None

    def __enter__(self):
        return self

    def __exit__(self, *_):
        if not self.keep:
            shutil.rmtree(self.folder, ignore_errors=True)

    def place(self, name):
        """The path of a file of the folder."""
        return os.path.join(self.folder, name)

    def write(self, name, text):
        """Writes a file of the folder, and returns its path."""
        path = self.place(name)
        try:
            with open(path, 'w', encoding='utf-8', newline='\n') as file:
                file.write(text)
        except OSError as error:
            raise Wrong(f'{path}: {error.strerror}') from None
        return path

    def run(self, told, *words):
        """Runs asg, and says so where it takes its time."""
        try:
            with Ticks(told):
                done = subprocess.run([self.path, *words], stdin=subprocess.DEVNULL,
                                      stdout=subprocess.PIPE, stderr=subprocess.DEVNULL)
        except OSError as error:
            raise Wrong(f'{self.path} does not start: {error.strerror}') from None
        return Run(done.returncode, done.stdout.decode('utf-8', 'replace'))

    def check(self, told, *words):
        """Has `asg check` check an answer; nothing is shown that it doesn't accept. Returns its line."""
        done = self.run(told, 'check', *words)
        if done.status or not done.text.startswith('yes '):
            raise Wrong(f'asg check does not accept the answer of asg: {done.text.strip() or ending(done.status)}')
        return done.text.strip()


def ending(status):
    """What a status says, in words."""
    if status < 0:
        return f'asg was ended by the signal {-status}'
    return STATUSES.get(status, f'asg ended with the status {status}')

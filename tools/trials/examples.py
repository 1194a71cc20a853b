"""The pages' examples: each command in them writes just what stands behind it."""
import os
import re
import shutil
import subprocess
import sys

from planning.program import TOP

PAGES = (('README.md',), ('docs', 'PLANNING.md'), ('docs', 'DOCUMENTS.md'))
BLOCK = re.compile(r'^```(\w*)\n(.*?)^```\n', re.M | re.S)
LEFT_OUT = '..\n'


def blocks(text):
    """The commands of a page in order, each with the output that stands right behind it, or None."""
    found = list(BLOCK.finditer(text))
    for here, after in zip(found, [*found[1:], None]):
        if here[1] == 'sh' and here[2].startswith(('./asg', 'tools/', 'cat ', 'crew')):
            told = after and not after[1] and not text[here.end():after.start()].strip()
            yield here[2], after[2] if told else None


def is_as_told(wrote, told):
    """Whether the output is what the page has, but for what a line with two dots leaves out."""
    parts = map(re.escape, told.split(LEFT_OUT))
    return told is not None and re.fullmatch('(?:.*\n)+'.join(parts), wrote) is not None


def copied(bench):
    """A folder like the clone's, with the program in place of the launcher."""
    folder = os.path.join(bench.folder, 'clone')
    os.mkdir(folder)
    for name in ('docs', 'examples', 'tools', 'crates'):
        os.symlink(os.path.join(TOP, name), os.path.join(folder, name))
    os.symlink(bench.asg, os.path.join(folder, 'asg'))
    return folder


def trials(bench):
    folder = copied(bench)
    path = f'{os.path.dirname(sys.executable)}:{os.environ.get("PATH", "")}'
    given = {**os.environ, 'ASG': bench.asg, 'PATH': path, 'PYTHONDONTWRITEBYTECODE': '1'}
    for page in PAGES:
        with open(os.path.join(TOP, *page), encoding='utf-8') as file:
            text = file.read()
        for command, told in blocks(text):
            done = subprocess.run(['bash', '-c', command], cwd=folder, env=given, capture_output=True, text=True,
                                  check=False)
            is_so = not done.stderr and done.returncode in (0, 1) and (told is None or is_as_told(done.stdout, told))
            bench.holds(is_so, f'example of {page[-1]}', command, told, done.stdout, done.stderr)
    shutil.rmtree(folder)

"""The files of the repository: the definitions of specs/, what they take from others, and the types of src/."""
import pathlib
import re

CRATES = pathlib.Path(__file__).resolve().parent.parent.parent / 'crates'
HEAD = re.compile(r"(?:pub )?(abbrev|unfoldable|record|data) (?:pub )?([\w']+)")
USE = re.compile(r'^\s*(?:pub |ghost )*use ([\w.]+?)(?:\.\{([^}]*)\}| as (\w+))', re.M)
COMMENT = re.compile(r'("[^"]*")|--.*')
TYPE = r'^(?:pub(?:\(\w+\))? )?(?:struct|enum|trait) {}\b'


def taken(text):
    """For each name that a text takes from a spec: the path that it stands under, and its name there."""
    found = {}
    for path, names, alias in USE.findall(text):
        if alias:
            found[alias] = (path, None)
        for part in names.split(','):
            there, _, here = part.strip().partition(' as ')
            if there:
                found[here or there] = (path, there)
    return found


class Sources:
    """The files of the repository, each read once."""

    def __init__(self):
        self.texts, self.specs, self.uses = {}, {}, {}

    def text(self, file):
        if file not in self.texts:
            self.texts[file] = file.read_text() if file.exists() else ''
        return self.texts[file]

    def imports(self, file):
        """For each name that a file takes from a spec: the path that it stands under, and its name there."""
        if file not in self.uses:
            self.uses[file] = taken(self.text(file))
        return self.uses[file]

    def definitions(self, file):
        """The definitions of a file of specs/: the kind and the lines of each, without comments."""
        if file not in self.specs:
            found, name = {}, None
            for line in self.text(file).split('\n'):
                head = HEAD.match(line)
                if head:
                    name = head.group(2)
                    found[name] = (head.group(1), [])
                elif line[:1].strip() and not line.startswith(f'{name} '):
                    name = None
                line = COMMENT.sub(r'\1', line).rstrip()
                if name and line:
                    found[name][1].append(line)
            self.specs[file] = found
        return self.specs[file]

    def constructors(self, file):
        """For each constructor of the data of a file: its data."""
        return {made.group(1): name for name, (kind, lines) in self.definitions(file).items() if kind == 'data'
                for made in (re.match(r'\s+(\w+) :', line) for line in lines[1:]) if made}

    def type_file(self, crate, name, near=None):
        """The file in which a crate has a type or a trait: this one where it has it."""
        shape = re.compile(TYPE.format(name), re.M)
        if near and shape.search(self.text(near)):
            return near
        files = (file for file in sorted((CRATES / crate / 'src').glob('**/*.rt')) if shape.search(self.text(file)))
        return next(files, None)


def spec_file(path):
    """The file that a path of specs names, or None where it isn't one of the repository's."""
    crate, _, module = path.removeprefix('Rattle.').partition('.specs.')
    file = CRATES / crate / 'specs' / (module.replace('.', '/') + '.antt')
    return file if file.exists() else None


def meant(sources, path, name):
    """What a name of a path is: a file and a name of the repository's, or a path and a name of std or the kit."""
    crate, _, module = path.removeprefix('Rattle.').partition('.specs.')
    if not (CRATES / crate).exists():
        return (path, name)
    if module.startswith('declared.'):
        parts = [part for part in module.split('.') if part != 'TheVariants']
        return ((CRATES / crate / 'src' / '/'.join(parts[1:-1])).with_suffix('.rt'), parts[-1])
    file = spec_file(path)
    if name in sources.definitions(file):
        return (file, name)
    if name in sources.constructors(file):
        return (file, sources.constructors(file)[name])
    return meant(sources, *sources.imports(file)[name])

"""Pages against the list of what is believed."""
import pathlib
import re

from believing.sources import CRATES


def by_file(found):
    """Names under the files that they stand in, or of std and the kit under their crates."""
    files = {}
    for home, name in found:
        where = home.removeprefix('Rattle.').split('.')[0] if isinstance(home, str) else str(home.relative_to(CRATES))
        files.setdefault(where, set()).add(name)
    return files


def counted(found, more):
    """What the head of a page says of how much there is to read."""
    def size(these):
        return f'{len(these):,}', f'{sum(map(len, these.values())):,}'
    specs = size({at: lines for at, lines in found.items() if at[0].suffix == '.antt'})
    types = size({at: lines for at, lines in found.items() if at[0].suffix == '.rt'})
    besides = size(more)
    return (f'{specs[0]} definitions in {specs[1]} lines', f'{types[0]} types and traits in {types[1]} lines',
            f'{besides[0]} more in {besides[1]} lines')


def page_names(text):
    """The names that a page's lists have under files and crates."""
    named = {}
    for where, rest in re.findall(r'^- `(\w+/[\w/]+\.(?:antt|rt)|\w+)`:?(.*\n(?: .*\n)*)', text, re.M):
        if '/' in where:
            items = re.sub(r'\n {4}', ' ', rest)
            names = ' '.join(re.findall(r"^  - ((?:`[\w']+`, )*`[\w']+`):", items, re.M))
        else:
            names = rest
        named.setdefault(where, []).extend(re.findall(r'`([^`]+)`', names))
    return named


def differences(wanted, named):
    """Where a page's names differ from those that are wanted, a line for each."""
    homes = {name: where for where, names in wanted.items() for name in names}
    for where in sorted(wanted.keys() | named.keys()):
        here, there = wanted.get(where, set()), named.get(where, [])
        if here - set(there):
            yield f'{where}: {", ".join(sorted(here - set(there)))}: missing in the page'
        for name in sorted(set(there) - here):
            yield f'{where}: {name}: ' + (f'stands in {homes[name]}' if name in homes else "isn't believed")
        for name in sorted(name for name in here if there.count(name) > 1):
            yield f'{where}: {name}: named more than once'


def check(page, wanted, counts):
    """Tells how a page differs from what it is to say, and gives how many tests passed and failed."""
    text, passed, failed = page.read_text(), 0, 0
    named = page_names(text)
    for ending in ('.antt', '.rt', ''):
        def of(files):
            return {where: names for where, names in files.items() if pathlib.Path(where).suffix == ending}
        found = list(differences(of(wanted), of(named)))
        print(*found, sep='\n', end='\n' if found else '')
        passed, failed = passed + (not found), failed + bool(found)
    said = ' '.join(text.split())
    missing = [count for count in counts if count not in said]
    print(*(f"the page doesn't say: {count}" for count in missing), sep='\n', end='\n' if missing else '')
    return passed + (not missing), failed + bool(missing)

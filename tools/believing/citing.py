"""What definitions, types, traits and contracts cite, and everything that the program's contract stands on."""
import re

from believing.sources import CRATES, TYPE, Sources, meant, taken

WORD = re.compile(r"(?<![\w'.)])[^\W\d][\w']*(?:\.[A-Z_a-z][\w']*)*|(?<=[\w')])\.[\w']+")
RUST_USE = re.compile(r'^use (\w+)((?:::\w+)*)::(?:(\w+)|\{([^}]*)\});', re.M)
STARTS = (('asg', 'main', 'fn main'), ('asg_app', 'program', 'fn run'), ('asg_answers', 'status', 'fn code'))


def words(text):
    """The names in a piece of a spec, without fields and texts in quotes."""
    return {word for word in WORD.findall(re.sub(r'"[^"]*"', '', text)) if not word.startswith('.')}


def cited(sources, file, text):
    """What a piece of a file cites: names of its lines of 'use', and of the file itself, variables so named too."""
    imports, own, found = sources.imports(file), {}, set()
    if file.suffix == '.antt':
        own = {name: name for name in sources.definitions(file)} | sources.constructors(file)
    for word in words(text):
        front, _, behind = word.partition('.')
        if front in imports:
            path, name = imports[front]
            found.add(meant(sources, path, name or behind))
        elif front in own:
            found.add((file, own[front]))
    return found


def rust_types(sources, file, text):
    """The types of the repository that a piece of code names."""
    crate, imported, found = file.relative_to(CRATES).parts[0], {}, set()
    for first, _, alone, names in RUST_USE.findall(sources.text(file)):
        for name in [alone] if alone else re.findall(r'\w+', names):
            imported[name] = crate if first in ('crate', 'super', 'self') else first
    if 'enum ' in text.split('\n')[0]:
        text = re.sub(r'^    \w+', '', text, flags=re.M)
    for word in set(re.findall(r'\b[A-Z]\w+', text)):
        home = imported.get(word, crate)
        if (CRATES / home).exists() and sources.type_file(home, word, file):
            found.add((sources.type_file(home, word, file), word))
    return found


def item(sources, file, name):
    """The lines of a type or trait without comments: of one that contracts see as a value, its name and that value."""
    text = re.sub(r'^\s*(?://|#\[).*\n', '', sources.text(file), flags=re.M)
    seen = re.search(rf'^impl[^\n]* Model for {name}\b.*?^}}', text, re.M | re.S)
    if seen:
        value = re.search(r'^    ghost Value = \{.*?\};\n', seen.group(0), re.M | re.S)
        return [seen.group(0).split('\n')[0]] + value.group(0).rstrip().split('\n'), seen.group(0)
    whole = re.search(TYPE.format(name) + r'(?:[^{;]*;|[^\n]*\}$|.*?^\})', text, re.M | re.S)
    return [line for line in whole.group(0).split('\n') if line.strip()], ''


def contract(sources, file, head):
    """The contract of a function: from its head to its body, without comments."""
    text = re.sub(r'^\s*//.*\n', '', sources.text(file), flags=re.M)
    found = re.search(rf'^ *(?:pub )?{head}\b(?:(?!ensures|requires)[^{{])*\{{\}}?$', text, re.M)
    found = found or re.search(rf'^ *(?:pub )?{head}\b.*?(?=^ *\{{\}}?$)', text, re.M | re.S)
    return found.group(0)


def steps(sources, at):
    """What a definition, type or trait cites, and its lines."""
    file, name = at
    if file.suffix == '.antt':
        _, lines = sources.definitions(file)[name]
        return cited(sources, file, '\n'.join(lines)) - {at}, lines
    lines, seen = item(sources, file, name)
    text = '\n'.join(lines)
    if seen:
        inner = taken(seen)
        return {meant(sources, *inner[word]) for word in words(text) & set(inner)}, lines
    return (cited(sources, file, text) | rust_types(sources, file, text)) - {at}, lines


def follow(sources, starts, known=()):
    """Everything that the starts stand on, with the lines of each; and the words of std and the kit among them."""
    todo, found, outside = list(starts), {}, set()
    while todo:
        at = todo.pop()
        if isinstance(at[0], str):
            outside.add(at)
        elif at not in found and at not in known:
            more, found[at] = steps(sources, at)
            todo += more
    return found, outside


def laws(sources):
    """What the contracts of the laws of asg_promises cite."""
    found = set()
    for file in sorted(CRATES.glob('asg_promises/src/laws.rt')) + sorted(CRATES.glob('asg_promises/src/laws/*.rt')):
        for head in re.findall(r'^pub (fn \w+)', sources.text(file), re.M):
            found |= cited(sources, file, contract(sources, file, head))
    return found


def believed():
    """What the program's contract stands on, what the laws stand on besides, and the words of std and the kit."""
    sources, starts = Sources(), set()
    for crate, module, head in STARTS:
        file = CRATES / crate / 'src' / f'{module}.rt'
        text = contract(sources, file, head)
        starts |= cited(sources, file, text) | rust_types(sources, file, text)
    found, outside = follow(sources, starts)
    more, also = follow(sources, laws(sources), found)
    return found, more, outside | also

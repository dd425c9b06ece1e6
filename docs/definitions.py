"""The definitions of this repository as its files have them: those of specs/, and the types, traits and constants of src/ that they name."""

import functools
import pathlib
import re

from script import TOP, Fault

HEAD = re.compile(r'^( *)(?:unfoldable +)?(?:abbrev +)?pub +(?:record +|data +)?(◌\S+◌|[^\s:(]+)')
FIELD = re.compile(r'^ +pub [a-z_]+ *:')
IMPORT = re.compile(r'use Rattle\.([a-z_0-9]+)\.specs\.([A-Za-z0-9_.]+?)(?:\.\{([^}]*)\}| as ([a-z_]+))(?=[;\s]|$)')


class Definition:
    """A definition: the comment above it, its text, and the head of the module that it stands in."""

    def __init__(self, comment, context):
        self.comment, self.context, self.lines = comment, context, []

    def text(self):
        return without_comments('\n'.join(self.lines))

    def count(self):
        """How many lines there are to read, without comments."""
        return sum(bool(line.strip()) for line in self.text().split('\n'))


def without_comments(text):
    return re.sub(r'--.*', '', text)


@functools.cache
def definitions(file):
    """The definitions of a file of specs/, by their names."""
    found, comment, context, current, is_record = {}, [], [], None, False
    for line in file.read_text(encoding='utf-8').split('\n'):
        head = HEAD.match(line)
        if not line.strip():
            comment = []
        elif line.lstrip().startswith('--'):
            comment.append(line)
        elif re.match('(pub )?use ', line):
            comment = []
        elif re.match(r'(unfoldable )?(module|mutual)\b', line):
            context, comment, current = comment + [line], [], None
        elif head and not (FIELD.match(line) and is_record):
            context = context if head[1] else []
            current = found.setdefault(head[2], Definition(comment, context))
            is_record = re.match(r' *pub (record|data) ', line) is not None
            current.lines.append(line)
            comment = []
        elif current:
            current.lines.append(line)
    return found


def said_of(file):
    """What a file says of itself: the first paragraph of the comment at its head."""
    lines = []
    for line in file.read_text(encoding='utf-8').split('\n'):
        if not line.startswith('--') or not line.strip('- ') or line.startswith('--   '):
            break
        lines.append(line.removeprefix('--').strip())
    return ' '.join(lines).rstrip('.:')


@functools.cache
def imports(file):
    """From a name, or an alias with a name behind a point, to what it stands for: a file and a name in it."""
    found = {}
    for crate, module, names, alias in IMPORT.findall(re.sub(r'^( *)//.*$', '', file.read_text(encoding='utf-8'), flags=re.M)):
        if module.startswith('declared'):
            target = declared(crate, module)
            for name in filter(None, map(str.strip, (names or alias).split(','))):
                old, _, new = name.partition(' as ')
                if target and target[0].exists():
                    found[(new or old).strip()] = (target[0], target[1] or old.strip())
            continue
        other = TOP / 'crates' / crate / 'specs' / (module.replace('.', '/') + '.antt')
        if not other.exists():
            continue
        if alias:
            found.update((alias + '.' + name, (other, name)) for name in definitions(other))
        for name in filter(None, map(str.strip, (names or '').split(','))):
            old, _, new = name.partition(' as ')
            found[(new or old).strip()] = (other, old.strip())
    return found


def declared(crate, module):
    """The file of src/ and the item that an import of declared words speaks of; no item where it is a constant's own name."""
    parts = module.split('.')[1:]
    item = None
    if parts and parts[-1] in ('TheVariants', 'TheConstants'):
        kind = parts.pop()
        item = parts.pop() if kind == 'TheVariants' else None
    elif parts:
        item = parts.pop()
    source = TOP / 'crates' / crate / 'src'
    return source / ('/'.join(parts or ['lib']) + '.rt'), item


def resolved(target):
    """The file and the name where a definition stands, also where a file hands on what another has; nothing for one of the library."""
    seen = set()
    while target and target not in seen:
        seen.add(target)
        file, name = target
        if file.suffix == '.rt':
            return target if item(file, name) else None
        if name in definitions(file):
            return target
        target = imports(file).get(name)
    return None


@functools.cache
def item(file, name):
    """A type, trait or constant of a file of src/ with its documentation, and how contracts see it; nothing where it isn't there."""
    text = file.read_text(encoding='utf-8')
    declared_as = r'^((?:pub(?:\([a-z]+\))? )?(?:struct|enum|trait|const|type) %s\b(?:[^\n]*;$|(?:.|\n)*?^\}))' % re.escape(name)
    head = re.search(r'((?:^ *///.*\n)*)(?:^#.*\n)*' + declared_as, text, re.M)
    if not head:
        return None
    view = re.search(r'^impl(?:<[^>]*>)? Model for %s\b(?:.|\n)*?^\}' % re.escape(name), text, re.M)
    return head[1] + head[2] + ('\n\n' + view[0] if view else '')


@functools.cache
def items_of(crate):
    """From the name of each type, trait and constant of a crate's src/ to its file."""
    head = re.compile(r'^(?:pub(?:\([a-z]+\))? )?(?:struct|enum|trait|const|type) (\w+)', re.M)
    files = sorted((TOP / 'crates' / crate / 'src').rglob('*.rt'))
    return {name: file for file in files for name in head.findall(file.read_text(encoding='utf-8'))}


@functools.cache
def used(file):
    """From the names of types that a file of src/ may use to where they stand: its own, and those of its `use` lines."""
    text = re.sub(r'//.*', '', file.read_text(encoding='utf-8'))
    own = place(file)[0]
    found = {name: (other, name) for name, other in items_of(own).items() if other == file}
    for crate, names in re.findall(r'^(?:pub )?use (\w+)((?:::\w+)*(?:::\{[^}]*\})?);', text, re.M):
        known = items_of(own if crate == 'crate' else crate)
        found.update((name, (known[name], name)) for name in re.findall(r'\w+', names) if name in known)
    return found


def spoken(text):
    """The words and the signs of a text."""
    words = set(re.findall(r"[A-Za-z_][A-Za-z_0-9'-]*(?:\.[A-Za-z_][A-Za-z_0-9'-]*)?", text))
    signs = set(re.findall(r'[^\sA-Za-z0-9_(){}.,:=→λ×]+', text))
    plain = {word.split('.')[0] for word in words} | words
    if len(re.findall(r'\bthen\b', text)) <= len(re.findall(r'\bif\b', text)):
        plain.discard('then')  # what belongs to an `if`
    return plain | signs


def named(text, file):
    """What a text of a file names: of other files by the imports, and of its own."""
    words = spoken(text)
    known = dict(imports(file))
    if file.suffix == '.rt':
        text = re.sub(r'//.*', '', text)
        known.update(used(file))
    else:
        known.update((name, (file, name)) for name in definitions(file))
    return [target for name, target in known.items() if name in words or (name.startswith('◌') and name.strip('◌') in words)]


def reached(start):
    """All that targets rest on, themselves too."""
    todo, seen = list(start), set()
    while todo:
        target = resolved(todo.pop())
        if target is None or target in seen:
            continue
        seen.add(target)
        file, name = target
        text = item(file, name) if file.suffix == '.rt' else definitions(file)[name].text()
        todo += named(text, file)
    return seen


def ordered(files):
    """Files of specs/ that others rest on before these."""
    result = []

    def visit(file):
        if file not in result:
            for lower in sorted({lower for lower, _ in imports(file).values() if lower.suffix == '.antt'}):
                if lower in files and lower != file:
                    visit(lower)
            if file not in result:
                result.append(file)

    for file in sorted(files):
        visit(file)
    return result


def contract(file, clauses):
    """The text of the clauses of `run`, without comments."""
    text = re.sub(r'//.*', '', file.read_text(encoding='utf-8'))
    body = text[text.index('pub fn run<'):]
    parts = re.split(r'\n +(?=ensures )', body[:body.index('\n{')])
    for clause in clauses:
        if not any(re.match(r'ensures %s\b' % re.escape(clause), part) for part in parts):
            raise Fault('run has no clause %s' % clause)
    return '\n'.join(part.rstrip() for part in parts if any(re.match(r'ensures %s\b' % re.escape(clause), part) for clause in clauses))


def place(file):
    """The crate of a file, and its name within specs/ or src/."""
    parts = pathlib.Path(file).relative_to(TOP / 'crates').with_suffix('').parts
    return parts[0], '/'.join(parts[2:])

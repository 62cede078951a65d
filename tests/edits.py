"""Changes of single lines, as tests/clauses and tests/laws keep them: how their files are read, how a change is made,
and which lines are clauses."""
import os, re

# what is no clause, on however many lines: an import, and the names that a definition unfolds
NAMES = re.compile(r'^use .*\{[^}]*\}|^( *)unfolding .*(\n\1 .*)*', re.M)
# the lines that are none: comments, declarations, constructors and fields, a left-hand side alone, a record's first and
# last line where its fields have their own, and the value that a chain of writes starts from
NO_CLAUSE = re.compile(r'\s*(--|infix|module |pub record |pub data |(pub )?[\w-]+ : |abbrev |unfoldable '
                       r'|(then|else) record \{$|\}$|\w$|$)|.* =$')
FIELD = re.compile(r'  pub [\w-]+ : ')


def read(path):
    with open(path, encoding='utf-8') as f:
        return f.read()


def write(path, text):
    with open(path, 'w', encoding='utf-8') as f:
        f.write(text)


def clauses(text):
    """The clauses of a file of definitions: (number of the line, the line). A field is one where its record has
    parameters, for then it says something of them."""
    says = False
    text = NAMES.sub(lambda names: '\n' * names.group().count('\n'), text)
    for i, line in enumerate(text.split('\n')):
        if re.match(r'\S', line):
            says = line.startswith('pub record ') and '(' in line
        if says and FIELD.match(line) or not NO_CLAUSE.match(line):
            yield i, line


def unquoted(line):
    """A fault, where docs/ASSESSOR.md does not quote the last line of a test."""
    page = os.path.join(os.path.dirname(os.path.abspath(__file__)), '..', 'docs', 'ASSESSOR.md')
    return [] if f'`{line}`' in read(page) else [f'docs/ASSESSOR.md does not quote the last line: {line}']


def blocks(path):
    """The blocks of a file, each a list of its lines as (key, value). A line that opens with # is a comment."""
    parts = re.split(r'\n\n+', re.sub(r'^#.*\n', '', read(path), flags=re.M).strip())
    return [[tuple(line.split(': ', 1)) for line in part.split('\n')] for part in parts]


def places(text, edit):
    """The numbers of the lines that are an edit's old line. Where it stands more than once, the edit's `which` chooses
    one."""
    found = [i for i, line in enumerate(text.split('\n')) if line == edit['old']]
    return found[int(edit['which']) - 1:][:1] if 'which' in edit else found


def misfit(text, edit):
    """Why an edit cannot be made in this text, or nothing."""
    times = len(places(text, edit))
    if times != 1:
        return f'its old line stands {times} times in {edit["file"]}'
    return 'it changes nothing' if edit['old'] == edit['new'] else None


def made(text, edit):
    """The text with the edit made."""
    lines = text.split('\n')
    [place] = places(text, edit)
    lines[place] = edit['new']
    return '\n'.join(lines)

"""What the documents say and is not so: each check takes the text of a document and yields its faults, a line each.
The crates and the tests are read as they stand; a document is handed over, so that tests/trace/broken can hand over a
changed one."""
import functools, glob, os, re, subprocess, sys
from collections import Counter

TOP = os.path.join(os.path.dirname(os.path.abspath(__file__)), '..', '..')
RULES = 'crates/rules/specs'
# the papers, by the names that the trace has for them: the variable that can name a paper's file, and its usual place
PAPERS = {
    '01': ('HESKAVERN_PAPER', '../shared/01-scope.md'),
    '02': ('HESKAVERN_REQUESTS', '../shared/02-change-requests.md'),
}
# what a page has before its first section
HEAD = 'the head'
# a line of the trace: one quotation of a paper, what says it, what shows it
LINE = re.compile(r'\| "((?:[^|"]|\\\|)+)" \| ([^|]+) \| ([^|]*)\|')
# what may stand between two quotations: what ends a sentence or a clause, and the marks of lists and tables
STOPS = ' .,;:|-'
THEOREMS = re.compile(r'theorems? ((?:`[^`]+`(?:, | and )?)+)')
# names, and the place that follows them: a file of the rules or two, or a crate
PLACED = re.compile(r'((?:`[^`]+`[^`;.]*?)+?)(?: in ([A-Z]\w+)(?: and in ([A-Z]\w+))?|\b(crate \w+))')


@functools.cache
def read(path):
    with open(os.path.join(TOP, path), encoding='utf-8') as f:
        return f.read()


def files(*patterns):
    return [path for pattern in patterns for path in sorted(glob.glob(pattern, root_dir=TOP))]


def is_file(path):
    """Whether it is a path, which has a slash, of a file that is there."""
    return '/' in path and os.path.isfile(os.path.join(TOP, path))


def names(text):
    """What a text has in code marks."""
    return re.findall(r'`([^`]+)`', text)


def squeezed(text):
    return re.sub(r'\s+', ' ', text).strip()


def plain(text):
    """Words of a paper as they are compared: without marks of bold and code and the stroke before a bar, and with
    single quotes."""
    return squeezed(re.sub(r'[*`\\]', '', text)).replace('"', "'")


# ---- the trace and the papers


def sections(page):
    """The sections of a page as (heading, what stands under it), the head first. The title is left off."""
    parts = re.split(r'^## (.*)\n', re.sub(r'\A# .*\n', '', page), flags=re.M)
    return list(zip([HEAD, *parts[1::2]], parts[::2]))


def part(trace, paper):
    """The part of the trace that is about a paper: it opens with `# ` and the paper's name."""
    parts = re.split(r'^# (\w+).*\n', trace, flags=re.M)
    return dict(zip(parts[1::2], parts[2::2])).get(paper, '')


@functools.cache
def lines(trace):
    """The lines of the trace, as (paper, section, words of the paper, what says them, what shows it)."""
    under = [(paper, heading, text) for paper in PAPERS for heading, text in sections(part(trace, paper))]
    cells = [(paper, heading, LINE.fullmatch(line)) for paper, heading, text in under for line in text.split('\n')]
    return [(paper, heading, *found.groups()) for paper, heading, found in cells if found]


def quoted(trace, paper, heading):
    """The words that the trace quotes of a section of a paper."""
    return [words for of, section, words, _, _ in lines(trace) if (of, section) == (paper, heading)]


def misshapen(trace):
    """Lines of the tables of the trace that are about a paper, their heads aside, and are no line of the trace."""
    for paper in PAPERS:
        for line in part(trace, paper).split('\n'):
            if line.startswith('|') and not re.match(rf'\| {paper} \||\|---', line) and not LINE.fullmatch(line):
                yield f'docs/TRACE.md: not one quotation, what says it and what shows it: {line}'


def uncovered(paper, text, quotations):
    """What keeps the quotations, one after the other, from being the whole text, which is of the paper."""
    end = 0
    for words in quotations:
        if text.count(words) != 1:
            yield f'{paper} says this {text.count(words)} times there, not once: "{words}"'
            continue
        start = text.index(words)
        if start < end:
            yield f'quoted twice, or before its turn: "{words}"'
        elif text[end:start].strip(STOPS):
            yield f'left out: "{text[end:start].strip(STOPS)}"'
        end = max(end, start + len(words))
    if text[end:].strip(STOPS):
        yield f'left out: "{text[end:].strip(STOPS)}"'


def note(heading):
    """The name of the note that a section wants: the one of its request, and none where it is of no request."""
    request = re.match(r'W-\d+', heading)
    return f'landings/{request.group()}' if request else None


def asked(paper):
    """The sections of a paper. A request is one: 02 has its number and title in bold, where 01 has a heading."""
    return sections(re.sub(r'^\*\*(W-\d+\. .+?)\.\*\*', r'## \1\n', paper, flags=re.M))


def untraced(told, paper):
    """What keeps the lines of the trace, section by section, from being the paper, but for requests without a note."""
    trace = told['TRACE']
    due = [(heading, text) for heading, text in asked(told[paper]) if note(heading) in {None, *told}]
    if [heading for heading, _ in sections(part(trace, paper))] != [heading for heading, _ in due]:
        yield f'the sections of docs/TRACE.md are not those of {paper}, in its order'
    for heading, text in due:
        found = uncovered(paper, plain(text), map(plain, quoted(trace, paper, heading)))
        yield from (f'docs/TRACE.md, "{heading}": {fault}' for fault in found)


# ---- the landings


def notes(told):
    """The names of the notes on requests."""
    return sorted(name for name in told if re.match('landings/W-', name))


def unlanded(told):
    """Requests that have lines and no note, or a note and no lines; notes of no request, where 02 is there; and those
    that lack a part that docs/landings/README.md asks for."""
    traced = {note(heading) for heading, _ in sections(part(told['TRACE'], '02'))} - {None}
    requests = {note(heading) for heading, _ in asked(told['02'])} if '02' in told else set(notes(told))
    wanted = re.findall(r'`## ([^`]+)`', told['landings/README'])
    for name in sorted(traced - {*told}):
        yield f'docs/TRACE.md has lines of a request without its note, docs/{name}.md'
    for name in notes(told):
        if name not in requests:
            yield f'docs/{name}.md: 02 has no such request'
        elif name not in traced:
            yield f'docs/{name}.md: the request has no lines in docs/TRACE.md'
        if [heading for heading, text in sections(told[name])[1:] if text.strip()] != wanted:
            yield f'docs/{name}.md: its parts are not those that docs/landings/README.md asks for, in that order'


# ---- what the trace names


@functools.cache
def declared(place):
    """The names that a file of the rules declares, or any file of a crate."""
    crate = place.removeprefix('crate ')
    whole = f'crates/{crate}/specs/*.antt', f'crates/{crate}/proofs/*.antt', f'crates/{crate}/src/*.rt'
    text = '\n'.join(map(read, files(f'{RULES}/{place}.antt') if crate == place else files(*whole)))
    specs = re.findall(r'^\s*(?:unfoldable |abbrev |pub |record |data )*(\S+) :', text, re.M)
    return {*specs, *re.findall(r'^\s*(?:pub )?(?:fn|struct|enum|const) (\w+)', text, re.M)}


@functools.cache
def theorems():
    """The names that the files of crate laws state for other crates."""
    text = '\n'.join(map(read, files('crates/laws/specs/*.antt', 'crates/laws/proofs/*.antt')))
    return set(re.findall(r'^ *pub (\S+) :', text, re.M))


@functools.cache
def rows():
    """The rows of the eight tables: of damaged books, of the order, of batches, of the audit and of comparisons those
    in the lists that the theorem speaks of, K1 to K10, S1 to S19, and the replays."""
    found = {'replays'}
    for file in ('Damaged', 'Order', 'Batches', 'Audits', 'Compares'):
        text = read(f'{RULES}/{file}.antt')
        for listed in re.findall(r'^\w+ m b k = T \(every (\w+) ', text, re.M):
            found.update(re.findall(r'\w+', re.search(rf'^{listed} =\n(.*?)∷ \[\]\n\n', text, re.M | re.S).group(1)))
    for file in ('Cases', 'Sixteen'):
        found.update(re.findall(r'-- ([KS]\d+):', read(f'{RULES}/{file}.antt')))
    return found


@functools.cache
def edits():
    """The wrong programs, rules and ledgers that are kept: must-fail edits as CRATE/NAME, those of tests/laws as
    NAME."""
    kept = (re.search(r'(\w+)/must-fail/(\w+)\.edit$', path).groups() for path in files('crates/*/must-fail/*.edit'))
    return {*map('/'.join, kept), *re.findall(r'^name: (\w+)$', read('tests/laws/edits'), re.M)}


def unnamed(trace):
    """Names of the trace that are not where it says, or of which it does not say where they are."""
    known = rows() | {edit.split('/')[-1] for edit in edits()}
    for *_, said, shown in lines(trace):
        for listed in THEOREMS.findall(said):
            yield from (f'there is no theorem {name}' for name in names(listed) if name not in theorems())
        rest = THEOREMS.sub('', said)
        for listed, *places in PLACED.findall(rest):
            for place in filter(None, places):
                yield from (f'{name} is not in {place}' for name in names(listed) if name not in declared(place))
        lost = [name for name in names(PLACED.sub('', rest)) if not is_file(name)]
        unknown = [name for name in names(shown) if name not in known and not is_file(name)]
        yield from (f'{name} is no file, and no place is given' for name in lost)
        yield from (f'there is no row, edit or file {name}' for name in unknown)


@functools.cache
def untold():
    """The clauses that no row can tell, as tests/clauses/run prints them."""
    return subprocess.run([f'{TOP}/tests/clauses/run', '--untold'], stdout=subprocess.PIPE, text=True).stdout.strip()


def told_otherwise(trace):
    if trace.split('\n\n')[-1].strip() != untold():
        yield 'the last table of docs/TRACE.md is not what tests/clauses/run --untold prints'


# ---- the other documents


@functools.cache
def sources():
    places = 'crates/*/specs/*.antt', 'crates/*/proofs/*.antt', 'crates/*/src/*.rt'
    return [squeezed(read(path)) for path in files(*places)]


def unquoted(told):
    """What a fence of the promises and the theorems quotes and no file of the crates has."""
    for quoted in map(squeezed, re.findall(r'^```\n(.*?)^```', told, re.M | re.S)):
        if not any(quoted in source for source in sources()):
            yield f'no file of the crates says: {quoted}'


def named_edits(cells):
    """The edits that the cells of a table name, each as `edits` has it: crate/`name`, or `name` alone where no other
    crate has that name."""
    crates = Counter(edit.split('/')[-1] for edit in edits())
    whole = {edit.split('/')[-1]: edit for edit in edits() if crates[edit.split('/')[-1]] == 1}
    named = re.findall(r'(?:(\w+)/)?`(\w+)`', cells)
    return {f'{crate}/{name}' if crate else whole.get(name, name) for crate, name in named}


def unkept(told):
    """Edits that the promises and the theorems name and are not there, or that are there and they do not name."""
    first_cells = ' '.join(re.findall(r'^\| ([^|]*) \|', told, re.M))
    named = named_edits(first_cells) - set(re.findall(r'pub fn (\w+)', read('crates/heap/src/lib.rt')))
    yield from (f'there is no edit {name}' for name in sorted(named - edits()))
    yield from (f'the edit {name} is named in no document' for name in sorted(edits() - named))


def lengths(assessor):
    """Files whose lines docs/ASSESSOR.md counts otherwise, and what it names and is not there."""
    for path, count in re.findall(r'^\| `(crates/\S+)` \| (\d+) \|', assessor, re.M):
        if is_file(path) and read(path).count('\n') != int(count):
            yield f'docs/ASSESSOR.md: {path} does not have {count} lines'
    for path in re.findall(r'`((?:tests|crates|docs|include|bindings|examples|bench)/[\w./-]+)', assessor):
        if not os.path.exists(os.path.join(TOP, path)):
            yield f'docs/ASSESSOR.md names {path}, which is not there'


# ---- all of them


def documents():
    """The documents by their names, and the papers: each is the file that its variable names, or else the one in its
    usual place, where that is there."""
    pages = files('docs/*.md', 'docs/landings/*.md')
    told = {page.removeprefix('docs/').removesuffix('.md'): read(page) for page in pages}
    for paper, (variable, usual) in PAPERS.items():
        named = os.environ.get(variable)
        path = os.path.abspath(named) if named else usual
        if named and not is_file(path):
            sys.exit(f'{variable} names {path}, which is not there')
        told.update({paper: read(path)} if is_file(path) else {})
    return told


def not_compared(told):
    """What the last line of a test says of the papers that are missing."""
    return ''.join(f', {paper} not compared' for paper in PAPERS if paper not in told)


def faults(told):
    """The faults of the documents, which come by their names; the papers are compared that are among them."""
    trace, quoting = told['TRACE'], told['PROMISES'] + told['THEOREMS']
    compared = [fault for paper in PAPERS if paper in told for fault in untraced(told, paper)]
    of_trace = *misshapen(trace), *compared, *unlanded(told), *unnamed(trace), *told_otherwise(trace)
    return [*of_trace, *unquoted(quoting), *unkept(quoting), *lengths(told['ASSESSOR'])]

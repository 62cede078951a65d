"""How much stack the functions of an archive take at most, read off its disassembly.

A depth is counted in bytes down from where the stack pointer stands before a call, so it is 8 at a function's first
instruction: the return address. The flow is followed from there, over jumps and jump tables. Every instruction must be
reached, and at one depth. Code may use places below the stack pointer (the red zone of this machine's convention), and
they count. A place that is reached through a register which holds an address on the stack, or by an index from one, is
taken to lie at that address or above it. What is not understood is a Fault: nothing is guessed.
"""
import re, subprocess

RETURN = 8
PADDING = re.compile(r'(data16 |cs )*nop[wl]?\b|xchg +%ax,%ax|int3')
PREFIX = re.compile(r'(notrack|bnd|rep[nz]*|lock) +')
SUFFIX = re.compile(r'(push|pop|call|ret|jmp)q\b')  # as older disassemblers write them
POINTER = re.compile(r'%(rsp|esp|spl?)\b')
PLACE = re.compile(r'(-?0x[0-9a-f]+|)\(%rsp(?:,%\w+,[1248])?\)')
LOWEST = re.compile(r'%rsp,%(?:r[abcd]x|r[sd]i|r\d+)')  # not %rbp: that would keep a frame
# what push and pop move as eight bytes: a whole register, a number, a place
EIGHT = re.compile(r'%r(\d+|[a-d]x|[sd]i|bp)|\$0x[0-9a-f]+|.*\(.*\)')
# to a register, from another or from the stack, of eight bytes; or its zero
MOVE = re.compile(r'mov +(?:%\w+|(?:0x[0-9a-f]+)?\(%rsp\)),%r(\d+|[a-d]x|[sd]i|bp)|xor +%e(\w\w),%e\2')
# what else moves the stack pointer or the flow
STRANGE = re.compile(r'push\w*|pop[afw]?\w?|enter|leave|call\w+|l?ret\w*|lcall|ljmp|iret\w*|int\d?|sys\w+|loop\w*'
                     r'|j[er]?cxz|xbegin')


class Fault(Exception):
    pass


def dump(*words):
    return subprocess.run(['objdump', '-w', *words], stdout=subprocess.PIPE, text=True, check=True).stdout


def symbol(text):
    """A relocation's symbol, and the number that is added to it."""
    name, added = re.fullmatch(r'(.+?)([-+]0x[0-9a-f]+)?', text).groups()
    return name, int(added or '0', 16)


def functions(archive):
    """The functions of the archive's one object by (section, start): the name, and the instructions by address, each
    with its relocation or None."""
    text, found = dump('-d', '-r', '--no-show-raw-insn', archive), {}
    if text.count('file format ') != 1 or 'file format elf64-x86-64' not in text:
        raise Fault(f'{archive} is not an archive of one object for x86-64')
    for line in text.split('\n'):
        if line.startswith('Disassembly of section '):
            section = line[len('Disassembly of section '):-1]
        elif head := re.fullmatch(r'([0-9a-f]+) <(.+)>:', line):
            code = {}
            found[section, int(head[1], 16)] = head[2], code
        elif one := re.match(r' *([0-9a-f]+):\t([^\t#<]*)', line):
            moved = re.search(r'\t[0-9a-f]+: R_X86_64_\w+\t(\S+)$', line)
            code[int(one[1], 16)] = SUFFIX.sub(r'\1', PREFIX.sub('', one[2].strip())), moved and symbol(moved[1])
    return found


def relocations(archive):
    """The relocations by (section, offset)."""
    found = {}
    for line in dump('-r', archive).split('\n'):
        if head := re.fullmatch(r'RELOCATION RECORDS FOR \[(.+)\]:', line):
            section = head[1]
        elif one := re.fullmatch(r'([0-9a-f]+) R_X86_64_\w+ +(\S+)', line):
            found[section, int(one[1], 16)] = symbol(one[2])
    return found


class Function:
    """What one function takes: its own deepest place, and its calls, each as (the depth at which the called one's stack
    begins, whom)."""

    def __init__(self, archive, section, start):
        self.archive, self.section = archive, section
        self.name, self.code = archive.functions[section, start]
        self.own, self.calls = RETURN, []
        self.follow(start)

    def fault(self, at, what):
        raise Fault(f'{self.name}, at {at:x}, {self.code[at][0]!r}: {what}')

    def follow(self, start):
        """Goes through all instructions, from the first on."""
        after = dict(zip(self.code, list(self.code)[1:]))
        depths, waiting = {}, [(start, RETURN)]
        while waiting:
            at, depth = waiting.pop()
            if at in depths and depths[at] != depth:
                self.fault(at, f'reached at depth {depth} and at depth {depths[at]}')
            if at not in depths:
                depths[at] = depth
                waiting += self.step(at, depth, after.get(at))
        for at, (text, _) in self.code.items():
            if at not in depths and not PADDING.match(text):
                self.fault(at, 'nothing is seen to lead here')

    def step(self, at, depth, after):
        """Where the flow goes from an instruction, as (address, depth); `after` is the next one. Notes calls."""
        word, _, operands = self.code[at][0].partition(' ')
        if word in ('ret', 'ud2'):
            if word == 'ret' and (depth != RETURN or operands):
                self.fault(at, f'returns at depth {depth}')
            return []
        onward = []
        if word.startswith('j') and not STRANGE.fullmatch(word):
            for to in self.table(at) if '*' in operands else [self.target(at)]:
                if to[0] == self.section and to[1] in self.code:
                    onward.append((to[1], depth))
                elif depth != RETURN:
                    self.fault(at, f'leaves at depth {depth}')
                else:
                    self.calls.append((0, to))  # it has this one's return address
        elif word == 'call':
            self.calls.append((depth, self.target(at)))
        else:
            depth = self.moved(at, depth, word, operands.strip())
        if word != 'jmp':
            if after is None:
                self.fault(at, 'runs past the end of the function')
            onward.append((after, depth))
        return onward

    def moved(self, at, depth, word, operands):
        """The depth after an instruction that neither calls nor jumps."""
        for below in PLACE.findall(operands):
            self.own = max(self.own, depth - int(below or '0', 16))
        rest = PLACE.sub('', operands)
        if word in ('push', 'pop') and EIGHT.fullmatch(operands):
            depth += 8 if word == 'push' else -8
        elif word in ('sub', 'add') and (by := re.fullmatch(r'\$0x([0-9a-f]+),%rsp', rest)):
            by = int(by[1], 16)
            depth += (by - 2**64 if by >> 63 else by) * (1 if word == 'sub' else -1)
        elif word == 'mov' and LOWEST.fullmatch(rest):
            pass  # the address of its lowest place, as `lea (%rsp)` would have it
        elif STRANGE.fullmatch(word) or POINTER.search(rest):
            self.fault(at, 'what this does to the stack is not understood')
        self.own = max(self.own, depth)
        return depth

    def target(self, at):
        """Where a call or a jump leads: (section, address), or (None, the name of a function outside the archive)."""
        text, moved = self.code[at]
        if '*' in text:
            self.fault(at, 'an indirect call')
        if moved is None:
            return self.section, int(text.split()[-1], 16)
        name, added = moved
        for (section, start), (known, _) in self.archive.functions.items():
            if name in (section, known):
                return section, added + 4 + (start if name == known else 0)
        return None, name

    def table(self, at):
        """Where an indirect jump leads: by the jump table that the instructions before it read, of offsets from the
        table's own start. Moves to registers that these do not use may stand among them."""
        steps = [r'jmp +\*(%\w+)', r'add +(%\w+),{0}', r'movslq (?:0x0)?\({1},%\w+,4\),{0}', r'lea +0x0\(%rip\),{1}']
        used = ()
        for a in reversed([a for a in self.code if a <= at]):
            text, moved = self.code[a]
            if step := re.fullmatch(steps[0].format(*used), text):
                used += step.groups()
                del steps[0]
            elif not (other := MOVE.fullmatch(text)) or f'%r{other[1] or other[2]}' in used:
                break
            if not steps:
                break
        if steps or moved is None:
            self.fault(at, 'an indirect jump, and by no jump table that is understood')
        section, begins = moved[0], moved[1] + 4
        named = [moved for _, code in self.archive.functions.values() for _, moved in code.values() if moved]
        others = {added + 4 for name, added in named if name == section} - {begins}
        found, entry = [], begins
        while entry not in others and (section, entry) in self.archive.relocations:
            to, added = self.archive.relocations[section, entry]
            found.append((to, added - (entry - begins)))
            entry += 4
        return found or self.fault(at, f'its jump table, at {begins:x} of {section}, is not there')


class Archive:
    def __init__(self, path):
        self.functions, self.relocations = functions(path), relocations(path)

    def named(self, name):
        """A function's (section, start) by its name."""
        found = [key for key, (known, _) in self.functions.items() if known == name]
        if len(found) != 1:
            raise Fault(f'the archive has {len(found)} functions {name}')
        return found[0]

    def deepest(self, key, above=()):
        """How deep a call of a function goes at most, and the functions outside the archive that it reaches; `above`
        are those that are under way."""
        if key not in self.functions:
            raise Fault(f'{self.functions[above[-1]][0]} leads to {key[1]:x} of {key[0]}, where no function begins')
        if key in above:
            circle = above[above.index(key):] + (key,)
            raise Fault('the calls go round in a circle: ' + ', '.join(self.functions[k][0] for k in circle))
        here = Function(self, *key)
        depth, outside = here.own, set()
        for begins, whom in here.calls:
            deeper, others = (RETURN, {whom[1]}) if whom[0] is None else self.deepest(whom, above + (key,))
            depth, outside = max(depth, begins + deeper), outside | others
        return depth, outside

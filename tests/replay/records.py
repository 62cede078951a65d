"""Replay records and replies in bytes and in words, and the replay program under test."""
import functools, os, struct, subprocess, sys

TOP = os.path.normpath(os.path.join(os.path.dirname(os.path.abspath(__file__)), '..', '..'))
RECORD = 16
OPS = {'ask': 1, 'give back': 2, 'resize': 3}


def record(op, size=0, offset=0):
    return struct.pack('<B3xII4x', op, size, offset)


def ask(size):
    return record(OPS['ask'], size)


def give_back(offset):
    return record(OPS['give back'], 0, offset)


def resize(offset, size):
    return record(OPS['resize'], size, offset)


def split(data):
    """The records or replies that the bytes are, the last one perhaps short."""
    return [data[i:i + RECORD] for i in range(0, len(data), RECORD)]


def record_words(data):
    """What a record asks for."""
    if len(data) < RECORD:
        return f'short record of {len(data)} bytes'
    op, s1, s2, s3, size, offset, s4 = struct.unpack('<4B3I', data)
    known = {1: f'ask {size}', 2: f'give back {offset}', 3: f'resize {offset} to {size}'}
    words = known.get(op, f'op {op}, size {size}, offset {offset}')
    return words + (' with a spare byte' if s1 or s2 or s3 or s4 else '')


def reply_words(data):
    if len(data) != RECORD:
        return f'{len(data)} bytes, not one reply' if data else 'no reply'
    op, number, zeros, offset, size, live = struct.unpack('<BBH3I', data)
    words = f'op {op}, number {number}, offset {offset}, size {size}, live {live}'
    return words + (' and spare bytes not 0' if zeros else '')


def as_hex(data):
    """In groups of four bytes, as 01 writes records."""
    return data.hex(' ', -4)


@functools.lru_cache(None)
def program():
    """The command that reads records on standard input and writes replies to standard output: what HESKAVERN_REPLAY
    names, or the repository's own, which is built first: a build in the middle of a test would take too long, and say
    so where the test wants silence."""
    named = os.environ.get('HESKAVERN_REPLAY')
    if not named:
        built = subprocess.run([os.path.join(TOP, 'build'), 'replay'], stdout=subprocess.DEVNULL)
        return [os.path.join(TOP, 'replay'), '--raw', '-'] if built.returncode == 0 else sys.exit(1)
    if not os.access(named, os.X_OK):
        sys.exit(f'HESKAVERN_REPLAY names {named}, which is no program')
    return [os.path.abspath(named)]

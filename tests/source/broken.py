"""Broken copies of the program written from the source, for the tests of the tests."""
import os, shutil, sys

SOURCE = os.path.dirname(os.path.abspath(__file__))


def broken_copy(folder, name, old, new):
    """A copy of tests/source in which the one text of the one file is another."""
    shutil.copytree(SOURCE, folder)
    path = os.path.join(folder, name)
    with open(path, encoding='utf-8') as f:
        text = f.read()
    if text.count(old) != 1:
        sys.exit(f'{name} has {text.count(old)} places that say: {old}')
    with open(path, 'w', encoding='utf-8') as f:
        f.write(text.replace(old, new))

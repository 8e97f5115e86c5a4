"""Files that a program here writes beside itself; with --check it only says whether they hold what would be written."""
import pathlib
import sys

FOLDER = pathlib.Path(__file__).resolve().parent


def store(usage, made):
    """`made` gives what the files hold, by their names, and how many cases they are; nothing is made where the words are wrong."""
    if sys.argv[1:] not in ([], ['--check']):
        sys.exit(usage)
    files, said = made()
    if not sys.argv[1:]:
        for name, text in files.items():
            (FOLDER / name).write_text(text)
        print(f'{said} written')
        return
    stale = [name for name, text in files.items() if (FOLDER / name).read_text() != text]
    if stale:
        sys.exit(f'not what document 01 answers: {", ".join(stale)}')
    print(f'{said}, as document 01 answers them')

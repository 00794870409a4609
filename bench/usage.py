"""What the benches do with their words: with --help one says what it is, and so it does with a word that is none of its
own, on standard error and with status 2."""
import os
import sys

# A figure within a tenth of its limit is reached.
TENTH = 1.1


def words(doc, is_word, most=None):
    """The words of the command line. It ends where one of them is none that the bench knows, and where there are too many."""
    given = sys.argv[1:]
    if "--help" in given:
        print(doc)
        sys.exit(0)
    if not all(map(is_word, given)) or len(given) > (len(given) if most is None else most):
        print(doc, file=sys.stderr)
        sys.exit(2)
    return given


def is_program(word):
    return os.path.isfile(word) and os.access(word, os.X_OK)


def is_number(word):
    return word.isdecimal()

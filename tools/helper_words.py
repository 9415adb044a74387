"""The words of the helpers beside this file, read in one way: wrong words, and files that can't be used, have a usage line and status 2.

None of this is part of what is proved.
"""
import argparse
import os
import sys


def reader(doc):
    """A reader of words, whose help is the text at the helper's head."""
    return argparse.ArgumentParser(description=doc, formatter_class=argparse.RawDescriptionHelpFormatter)


def run(words, main):
    """Ends the program with what `main` answers to the words that were given; a fault of a file is told without a traceback."""
    given = words.parse_args()
    try:
        status = main(given)
        sys.stdout.flush()
    except BrokenPipeError:
        os.dup2(os.open(os.devnull, os.O_WRONLY), sys.stdout.fileno())
        status = 1
    except OSError as fault:
        words.error(f"{fault.filename}: {fault.strerror}" if fault.filename else str(fault))
    sys.exit(status)

"""Runs the program on a worker of a cluster and counts its log there:  python -m rehearse_tools.there

It reads a command, a scenario's text and what takes something from the records, and writes how the program ended. Both
are pickled.
"""
import pickle
import sys

from .runs import piped


def main() -> None:
    command, text, take = pickle.load(sys.stdin.buffer)
    pickle.dump(piped(command, text, take), sys.stdout.buffer)


if __name__ == "__main__":
    main()

"""The tools beside the program, and what they share.

Each tool for users is a module with `main(words)`, which takes the words of its command line and returns the status.
`tools/NAME` runs it from a shell, and `python3 -m rehearse_tools NAME` from any folder that has this package on its
path.
"""
import os
import sys

if sys.version_info < (3, 9):
    sys.stderr.write("%s needs Python 3.9 or later, and this is Python %d.%d\n"
                     % ((os.path.basename(sys.argv[0]),) + sys.version_info[:2]))
    sys.exit(2)

"""python3 -m hunk WORD..: the command `hunk`."""

import sys

from hunk.command import main

# A process that `hunk survey` starts may read this file once more.
if __name__ == "__main__":
    sys.exit(main())

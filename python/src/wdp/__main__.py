#!/usr/bin/python3
"""The command wdp-office: `python3 -m wdp`, or this file itself, wherever it is called from."""
import signal

# Until the work begins, an interrupt ends it without a word.
if signal.getsignal(signal.SIGINT) is signal.default_int_handler:
    signal.signal(signal.SIGINT, signal.SIG_DFL)

import os  # noqa: E402
import sys  # noqa: E402

if not __package__:
    sys.path[0] = os.path.dirname(os.path.dirname(os.path.realpath(__file__)))

from wdp.cli import main  # noqa: E402

if __name__ == "__main__":
    sys.exit(main())

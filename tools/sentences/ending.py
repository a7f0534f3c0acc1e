"""How a tool over the sentences ends: help and answers that cannot be written are told, with status 2."""
import argparse
import os
import sys


class Words(argparse.ArgumentParser):
    """One whose help is not lost in silence where it cannot be written."""
    def _print_message(self, message, file=None):
        (file or sys.stderr).write(message or "")


def run(tool, main):
    """Ends with what `main` answers, once all of it is written."""
    try:
        if sys.stdout is None:
            raise OSError(9, "it is closed")
        try:
            code = main()
        except SystemExit as ended:
            code = ended.code
        sys.stdout.flush()
    except OSError as error:
        print("%s: standard output could not be written: %s" % (tool, error.strerror), file=sys.stderr)
        os.dup2(os.open(os.devnull, os.O_WRONLY), 1)
        code = 2
    sys.exit(code)

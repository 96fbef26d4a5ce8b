#!/usr/bin/python3
"""terminal.py COMMAND ARGUMENT..

Runs the command with its standard error on a terminal, and prints what the terminal got on standard error. The other streams,
and the status, are those of the command.
"""
import os
import pty
import subprocess
import sys


def main() -> int:
    ours, theirs = pty.openpty()
    with subprocess.Popen(sys.argv[1:], stderr=theirs) as command:
        os.close(theirs)
        shown = b""
        while True:
            try:
                part = os.read(ours, 4096)
            except OSError:
                break  # the last one who had it has closed it
            if not part:
                break
            shown += part
    os.close(ours)
    # a terminal has a carriage return before each line feed
    sys.stderr.buffer.write(shown.replace(b"\r\n", b"\n"))
    return command.returncode


if __name__ == "__main__":
    sys.exit(main())

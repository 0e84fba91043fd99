#!/usr/bin/env python3
"""Runs a command in a terminal of its own: terminal.py TYPED AT COMMAND...

TYPED, in hex, is typed once AT has been shown ('' at once). What the terminal shows is printed; the status is the command's.
"""
import os
import pty
import signal
import sys
import termios
import time


def quiet(terminal):
    """What is typed is not shown, so that the terminal shows what the command writes."""
    settings = termios.tcgetattr(terminal)
    settings[3] &= ~termios.ECHO
    termios.tcsetattr(terminal, termios.TCSANOW, settings)


def shown(terminal):
    """The next bytes that the terminal shows; none once the command has ended."""
    try:
        return os.read(terminal, 4096)
    except OSError:
        return b""


def main():
    typed, at, command = bytes.fromhex(sys.argv[1]), sys.argv[2].encode(), sys.argv[3:]
    child, terminal = pty.fork()
    if child == 0:
        signal.signal(signal.SIGINT, signal.SIG_DFL)  # else Ctrl-C does nothing where the trials run in the background
        time.sleep(0.2)  # until the terminal is quiet
        os.execvp(command[0], command)
    quiet(terminal)
    text = b""
    while True:
        if typed and at in text:
            os.write(terminal, typed)
            typed = b""
        more = shown(terminal)
        if not more:
            break
        text += more
    sys.stdout.buffer.write(text)
    status = os.waitpid(child, 0)[1]
    sys.exit(os.WEXITSTATUS(status) if os.WIFEXITED(status) else 128 + os.WTERMSIG(status))


main()

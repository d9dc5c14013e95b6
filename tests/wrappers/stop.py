"""Runs a command, stops it once a file is there, and shows what came to its standard error.

    stop.py terminal|pipe SIGNAL FILE WORD...

On a terminal INT and QUIT are typed, so they go to all that runs there; every other signal goes to the command alone. The
status is the command's, or 128 and the number of the signal that ended it.
"""
import os
import pty
import signal
import sys
import time


def is_there(path, child):
    """Waits for the file, as long as the command is there."""
    for _ in range(400):
        if os.path.exists(path):
            return True
        if os.waitpid(child, os.WNOHANG)[0]:
            return False
        time.sleep(0.05)
    return False


def begin(words, is_terminal):
    """The number of the command, and what it prints to standard error."""
    if is_terminal:
        child, shown = pty.fork()
    else:
        shown, end = os.pipe()
        child = os.fork()
    if child == 0:
        for number in (signal.SIGINT, signal.SIGQUIT, signal.SIGPIPE):
            signal.signal(number, signal.SIG_DFL)
        if not is_terminal:
            os.setsid()
            os.dup2(end, 2)
        os.execvp(words[0], words)
    if not is_terminal:
        os.close(end)
    return child, shown


def all_of(shown):
    """What is printed up to the end. A terminal ends with a fault."""
    text = b''
    while True:
        try:
            part = os.read(shown, 65536)
        except OSError:
            return text
        if not part:
            return text
        text += part


def main():
    where, name, path, *words = sys.argv[1:]
    child, shown = begin(words, where == 'terminal')
    if not is_there(path, child):
        sys.exit('the command didn\'t come so far')
    keys = {'INT': b'\x03', 'QUIT': b'\x1c'}
    if where == 'terminal' and name in keys:
        os.write(shown, keys[name])
    else:
        os.kill(child, getattr(signal, 'SIG' + name))
    text = all_of(shown)
    _, status = os.waitpid(child, 0)
    sys.stdout.write(text.decode().replace('\r\n', '\n'))
    sys.exit(128 + os.WTERMSIG(status) if os.WIFSIGNALED(status) else os.WEXITSTATUS(status))


main()

"""Runs a program on a pseudo terminal."""
import os
import pty
import subprocess


def on_terminal(folder, *words):
    """What the program prints on a pseudo terminal, which gives each end of a line as two characters."""
    mine, its = pty.openpty()
    ran = subprocess.Popen(words, cwd=folder, stdin=subprocess.DEVNULL, stdout=its, stderr=subprocess.PIPE)
    os.close(its)
    found = b""
    while True:
        try:
            part = os.read(mine, 65536)
        except OSError:
            break
        if not part:
            break
        found += part
    said = ran.communicate()[1]
    os.close(mine)
    return ran.returncode, found.decode().replace("\r\n", "\n"), said.decode()

"""What all tools share: the program that they ask, the files that they read, and how they say what went wrong."""
import argparse
import os
import signal
import subprocess
import sys

TOP = os.path.dirname(os.path.dirname(os.path.dirname(os.path.realpath(__file__))))

# `tools/diagram FILE | head` ends quietly.
signal.signal(signal.SIGPIPE, signal.SIG_DFL)


def fail(sentence):
    """Ends the tool with one line on the error stream."""
    sys.exit(sentence)


class Words(argparse.ArgumentParser):
    """The words of a tool. Its help is the text at its head."""

    def __init__(self, text):
        super().__init__(prog=f"tools/{os.path.basename(sys.argv[0])}", add_help=False)
        self.help_text = text
        self.add_argument("-h", "--help", action="help")

    def format_help(self):
        return self.help_text

    def error(self, message):
        """One line, and the exit status of the program for such words."""
        self.exit(2, f"{self.prog}: {message} (--help lists the words)\n")


def program():
    """The path of the program: the environment variable CHOR, or else the repository's wrapper."""
    return os.environ.get("CHOR") or os.path.join(TOP, "chor")


def ask(*words):
    """What the program writes for these words, and its exit status. What it says on the error stream is shown."""
    try:
        done = subprocess.run([program(), *words], stdin=subprocess.DEVNULL, stdout=subprocess.PIPE, check=False)
    except OSError as fault:
        fail(f"{program()}: {fault.strerror} (CHOR says which program to run)")
    return done.stdout.decode("utf-8", "replace"), done.returncode


def answer(*words, allowed=(0,)):
    """What the program writes for these words, where its exit status is an allowed one."""
    written, status = ask(*words)
    if status not in allowed:
        fail(f"chor {' '.join(words)}: {written.split(chr(10))[0] or f'exit status {status}'}")
    return written


def read(path):
    """The text of a file, or of the standard input where the path is `-`."""
    try:
        if path == "-":
            return sys.stdin.buffer.read().decode("utf-8")
        with open(path, "rb") as file:
            return file.read().decode("utf-8")
    except OSError as fault:
        return fail(f"{path}: {fault.strerror}")
    except UnicodeDecodeError:
        return fail(f"{shown(path)}: this is no text in UTF-8")


def shown(path):
    """How an input is named in what is said about it."""
    return "standard input" if path == "-" else path


def write(text):
    """Writes a text in UTF-8, whatever the terminal's encoding is."""
    sys.stdout.buffer.write(text.encode("utf-8"))
    sys.stdout.buffer.flush()

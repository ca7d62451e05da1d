"""What the commands in bin/ share: a word that they don't know, or a file that can't be read, is one line and
status 2."""
import argparse
import os
import signal
import sys
import traceback


class Parser(argparse.ArgumentParser):
    """text is what --help prints."""

    def __init__(self, name, text):
        super().__init__(prog=name, description=text, allow_abbrev=False)

    def format_help(self):
        return self.description

    def error(self, message):
        self.exit(2, f"{self.prog}: {message}; {self.prog} --help says what there is\n")

    def say(self, text):
        self._print_message(f"{self.prog}: {text}\n", sys.stderr)

    def opened(self, name):
        """The file of that name."""
        try:
            return open(name, "rb")
        except OSError as why:
            self.exit(2, f"{self.prog}: {name}: {why.strerror}\n")

    def cut_off(self, why):
        """A read or a write has failed. What is still to be written has nowhere to go, so nothing tries it at the end."""
        where = "" if why.filename is None else f"{why.filename}: "
        self.say(f"reading or writing failed: {where}{why.strerror}")
        os._exit(2)

    def status_of(self, work):
        """The exit status that work() gives. Where it comes to no end of its own the status is 2, or a signal's, so
        that what went wrong is not taken for a verdict."""
        if sys.stdout is None:
            self.exit(2, f"{self.prog}: there is no standard output\n")
        try:
            status = work()
            sys.stdout.flush()
            return status
        except OSError as why:
            self.cut_off(why)
        except KeyboardInterrupt:
            return 128 + signal.SIGINT
        except Exception:
            traceback.print_exc()
            return 2

    def opened_or_standard_input(self, name):
        if name is not None:
            return self.opened(name)
        if sys.stdin is None:
            self.exit(2, f"{self.prog}: there is no standard input\n")
        return sys.stdin.buffer

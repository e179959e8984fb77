"""For a compare.py: asks the program that compare.c was built to, and reads the command line."""

import argparse
import struct
import subprocess
import sys

MOST_KEPT = 64  # differences of a batch that the program describes, as fence.h has it


class Program:
    """The program that compare.c was built to. If a call ends it, it is started again."""

    def __init__(self, program, *words):
        self.command = [program, *map(str, words)]
        self.process = None

    def start(self):
        self.stop()
        self.process = subprocess.Popen(self.command, stdin=subprocess.PIPE, stdout=subprocess.PIPE)

    def stop(self):
        """The status of the program, which ends with its input."""
        if self.process is None:
            return 0
        try:
            self.process.stdin.close()
        except BrokenPipeError:
            pass
        self.process.stdout.close()
        status = self.process.wait()
        self.process = None
        return status

    def how_it_ended(self):
        """In words, once a call has ended the program."""
        status = self.stop()
        return f"signal {-status}" if status < 0 else f"status {status}"

    def ask(self, batch):
        """How many records of a batch differ, and the first of them as places and texts. Nothing if the program ended."""
        if self.process is None:
            self.start()
        try:
            self.process.stdin.write(batch)
            self.process.stdin.flush()
            count, = struct.unpack("=I", self.read(4))
            found = []
            for _ in range(min(count, MOST_KEPT)):
                place, length = struct.unpack("=2I", self.read(8))
                found.append((place, self.read(length).decode()))
            return count, found
        except (BrokenPipeError, EOFError):
            return None

    def read(self, length):
        data = self.process.stdout.read(length)
        if len(data) != length:
            raise EOFError
        return data


def command_line(usage, suites, **more):
    """The options that compare.py was called with. `suites` has a sentence for each suite; --list prints these and ends compare.py.
    `more` has the options that only one compare.py takes, as argparse wants them."""
    parser = argparse.ArgumentParser(usage=usage)
    parser.add_argument("--program")
    parser.add_argument("--seed", type=int, default=1)
    for name, settings in more.items():
        parser.add_argument(f"--{name}", **settings)
    parser.add_argument("--list", action="store_true")
    parser.add_argument("--planted", action="store_true")
    parser.add_argument("suites", nargs="*", metavar="SUITE")
    options = parser.parse_args()
    if options.list:
        for name, sentence in suites.items():
            print(f"{name:10} {sentence}")
        sys.exit(0)
    for name in options.suites:
        if name not in suites:
            parser.error(f"there is no suite {name}")
    if options.program is None:
        parser.error("--program is missing")
    return options

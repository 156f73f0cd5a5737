"""What the tools run: the programs beside the folder of this file, or where CDBG and CDEFINED say."""

import os
import re
import subprocess
import sys

FAULT = re.compile(r'(?:cdbg|cdefined): (usage|.* refused .*|read failed|write failed|out of memory|too long .*)$')


class Refused(Exception):
    """Something is not done: why, and the status that says so."""

    def __init__(self, why, status=1):
        super().__init__(why)
        self.status = status


def run(name, folder, *words):
    """Runs a program with these words in a folder: the lines that it prints. What is said while it is built is passed on."""
    beside = os.path.join(os.path.dirname(os.path.dirname(os.path.realpath(__file__))), name)
    program = os.path.abspath(os.environ.get(name.upper()) or beside)
    fault = None
    with open(os.path.join(folder, 'printed'), 'w+', encoding='latin-1') as printed:
        try:
            process = subprocess.Popen((program,) + words, cwd=folder, stdin=subprocess.DEVNULL, stdout=printed,
                                       stderr=subprocess.PIPE, encoding='utf-8', errors='replace')
            with process:
                for line in process.stderr:
                    fault = FAULT.match(line) or fault
                    sys.stderr.write('' if FAULT.match(line) else line)
        except OSError as error:
            raise Refused('%s: %s' % (program, error.strerror), 5)
        if process.returncode:
            why = fault[0] if fault else '%s ended with status %d' % (name, process.returncode)
            raise Refused(why, process.returncode)
        printed.seek(0)
        return printed.read().splitlines()


def contents(name):
    """The bytes of a file."""
    try:
        with open(name, 'rb') as file:
            return file.read()
    except OSError as error:
        raise Refused('%s: %s' % (name, error.strerror), 5)

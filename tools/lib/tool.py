"""The frame of a tool: its words, its help, its exit status, files that are read and written, runs of the program.

A tool is a script whose text begins with its help: what it does, then a line `usage: ..`. It ends with `tool.main(__doc__, run)`.
Bytes that are no ASCII are kept as they are, in files and in what is printed.

The exit status of a tool:
    0   done
    1   done, and a fault was found
    2   the words are not understood
    3   a file cannot be read, or is faulty, or a name is not there
    4   done in part, or there was nothing to do: what is left out is named on standard error
    5   what was printed could not be written
    7   a run of the program did not end as it should, or there was not enough memory
"""

import io
import os
import subprocess
import sys
import traceback
from typing import List, NamedTuple

TOP = os.path.dirname(os.path.dirname(os.path.dirname(os.path.realpath(__file__))))


class Refused(Exception):
    """Ends a tool with a message on standard error and a status."""

    def __init__(self, text, status=3):
        super().__init__(text)
        self.status = status


class Run(NamedTuple):
    """A run of the program: its status (less than 0 where a signal ended it, None where its time was over), and its lines."""

    status: int
    lines: List[str]


def name():
    """The name by which the tool was called."""
    return os.path.basename(sys.argv[0])


def tell(text):
    """Says a line on standard error, behind the name of the tool and behind what was printed so far."""
    sys.stdout.flush()
    print(f"{name()}: {text}", file=sys.stderr, flush=True)


def usage_of(text):
    """The usage of a help text: the lines from `usage:` to the next blank line."""
    lines = text.strip().split("\n")
    at = next(i for i, line in enumerate(lines) if line.startswith("usage:"))
    end = next((i for i in range(at, len(lines)) if lines[i] == ""), len(lines))
    return "\n".join(lines[at:end])


def misused(text=None):
    """Ends a tool whose words are not understood."""
    if text:
        tell(text)
    raise Refused("", 2)


def main(help_text, run):
    """Runs a tool on the words behind its name, and ends with the status that it gives (0 where it gives none)."""
    # In place of `reconfigure`, which Python 3.6 has not.
    sys.stdout, sys.stderr = (io.TextIOWrapper(it.detach(), "ascii", "surrogateescape", line_buffering=it.line_buffering) for it in (sys.stdout, sys.stderr))
    words = sys.argv[1:]
    own = words[: words.index("--")] if "--" in words else words
    try:
        if "--help" in own or "-h" in own:
            print(help_text.strip())
            status = 0
        else:
            status = run(words) or 0
        sys.stdout.flush()
    except Refused as refused:
        status = refused.status
        if status == 2:
            print(usage_of(help_text), file=sys.stderr)
        elif str(refused):
            tell(refused)
    except BrokenPipeError:
        os.dup2(os.open(os.devnull, os.O_WRONLY), 1)
        status = 5
    except OSError as error:
        tell(error)
        status = 5
    except KeyboardInterrupt:
        status = 130
    except (MemoryError, RecursionError):
        tell("there was not enough memory")
        status = 7
    except Exception:  # a mistake of the tool itself is no fault of what it reads
        traceback.print_exc()
        status = 7
    sys.exit(status)


def read(path):
    """The text of a file; a file that cannot be read is refused with status 3."""
    try:
        with open(path, "rb") as file:
            return file.read().decode("ascii", "surrogateescape")
    except OSError as error:
        raise Refused(f"{path}: {error.strerror}") from None


def write(path, text):
    """Writes a file; one that cannot be written is refused with status 5."""
    try:
        with open(path, "wb") as file:
            file.write(text.encode("ascii", "surrogateescape"))
    except OSError as error:
        raise Refused(f"{path}: {error.strerror}", 5) from None


def program():
    """The program: what VERITY names, or else bin/verity of this clone."""
    return os.environ.get("VERITY") or os.path.join(TOP, "bin", "verity")


def verity(*words, seconds=None):
    """Runs the program on words, and gives how it ended and what it printed; one that cannot be run is refused with status 7."""
    try:
        done = subprocess.run([program(), *words], stdin=subprocess.DEVNULL, stdout=subprocess.PIPE, timeout=seconds, check=False)
    except subprocess.TimeoutExpired as late:
        return Run(None, lines_of((late.stdout or b"").decode("ascii", "surrogateescape")))
    except OSError as error:
        raise Refused(f"{program()}: {os.strerror(error.errno)}", 7) from None
    return Run(done.returncode, lines_of(done.stdout.decode("ascii", "surrogateescape")))


def lines_of(text):
    """The lines of a text, without their ends."""
    lines = text.split("\n")
    if lines[-1] == "":
        lines.pop()
    return [line[:-1] if line.endswith("\r") else line for line in lines]

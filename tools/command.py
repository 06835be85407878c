"""What every Python tool here does alike when it is called.

    call(__doc__, main, [], ["--check"])

runs main(words) if the words of the call are one of the lists named. `--help` prints the tool's first text. Without a list main looks at
the words itself, and raises WrongCall. Whatever fails is said in one line on standard error.

Exit status: 0 done; 1 the tool has found something wrong, and says what (sys.exit with a text); 2 a wrong call; 3 input or output that
failed, or a program that is not there. A pipe that nobody reads any more ends quietly.
"""
import os
import pathlib
import subprocess
import sys


class WrongCall(Exception):
    """The words of the call are none that the tool takes."""


class Failed(Exception):
    """A file that is not what it is to be, or a program that is not there."""


def text(path, encoding="utf-8"):
    """The text of a file."""
    try:
        return pathlib.Path(path).read_text(encoding=encoding)
    except UnicodeDecodeError as failure:
        raise Failed(f"{path} is no text in {encoding}, from byte {failure.start} on") from None


# ---- Failures in words

def of_program(failure):
    """A program that was run and failed. What it said stands above, or here where it was kept."""
    said = failure.stderr or ""
    said = said.decode(errors="replace") if isinstance(said, bytes) else said
    name = os.path.basename(str(failure.cmd[0]))
    return f"{name} ended with status {failure.returncode}" + (f": {said.strip()}" if said.strip() else "")


def told(failure):
    """The status and the words of a failure; None for a fault of the tool itself."""
    if isinstance(failure, WrongCall):
        return 2, f"{failure}; --help says how it is called"
    if isinstance(failure, BrokenPipeError):
        return 3, ""
    if isinstance(failure, OSError):
        return 3, f"{failure.filename or 'standard output'}: {failure.strerror}"
    if isinstance(failure, Failed):
        return 3, str(failure)
    if isinstance(failure, subprocess.CalledProcessError):
        return 3, of_program(failure)
    if isinstance(failure, KeyboardInterrupt):
        return 130, ""
    return None


def end(status, words):
    """Ends the tool at once. What was not yet printed is not printed any more: it may be just that which failed."""
    if words and sys.stderr is not None:
        print(f"{os.path.basename(sys.argv[0])}: {words}", file=sys.stderr, flush=True)
    os._exit(status)


def uncaught(kind, failure, trace):
    known = told(failure)
    if known is None:
        sys.__excepthook__(kind, failure, trace)
    else:
        end(*known)


sys.excepthook = uncaught


# ---- The call

def words_of_call(doc, *calls):
    """The words of the call. With --help it prints the tool's text, and ends."""
    words = sys.argv[1:]
    if sys.stdout is None:
        end(3, "standard output is closed")
    sys.stdout.reconfigure(encoding="utf-8")
    if words == ["--help"]:
        print(doc.strip(), flush=True)
        sys.exit(0)
    if calls and words not in calls:
        raise WrongCall(f"'{' '.join(words)}' is not known here" if words else "a word is missing")
    return words


def call(doc, main, *calls):
    words = words_of_call(doc, *calls)
    try:
        main(words)
    finally:
        sys.stdout.flush()

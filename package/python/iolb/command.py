"""How scripts are called: `--help` prints a script's page, and what goes wrong is told in one line."""

import os
import subprocess
import sys


class Fault(Exception):
    """What keeps a script from going on, in one line."""


def whole(word, what):
    """A number of at least 1, which a word says."""
    if not word.isdecimal() or int(word) < 1:
        raise Fault("%s is a number of at least 1, and %s isn't" % (what, word))
    return int(word)


def program_at(path, name):
    """The full path of one of the two programs, which shows its usage where it is called without words."""
    full = os.path.abspath(path)
    try:
        said = subprocess.run([full], capture_output=True, timeout=60).stderr
    except (OSError, subprocess.TimeoutExpired):
        said = b""
    if not said.startswith(b"usage: %s " % name.encode()):
        raise Fault("%s isn't the program %s: `make` or `make quick` builds it in bin/" % (path, name))
    return full


def told(why):
    """What went wrong, in one line."""
    if isinstance(why, subprocess.CalledProcessError):
        said = why.stderr or ""
        said = said.decode(errors="replace") if isinstance(said, bytes) else said
        return "%s ended with %d%s" % (" ".join(map(str, why.cmd)), why.returncode, ": " + said.strip() if said.strip() else "")
    if isinstance(why, OSError) and why.filename is not None:
        return "%s: %s" % (why.filename, why.strerror)
    return str(why) or type(why).__name__


def call(main, page, least=0, most=None):
    """Runs a script's main function over its words, and ends with the status that it gives.

    `-h` and `--help` print the page, with the name that an installed script has, and status 0. Fewer words than `least`, or more than `most`, are answered by the page on the
    standard error and status 2; a fault, a file that isn't there and a program that ends otherwise than it should, by one line
    and status 3.
    """
    words, name = sys.argv[1:], os.path.basename(sys.argv[0])
    if name.startswith("iolb-"):
        page = page.replace("bench/" + name[5:], name)
    if "--help" in words or "-h" in words:
        print(page.strip())
        sys.exit(0)
    if len(words) < least or (most is not None and len(words) > most):
        print(page.strip(), file=sys.stderr)
        sys.exit(2)
    try:
        status = main(*words)
        sys.stdout.flush()
    except BrokenPipeError:
        os.dup2(os.open(os.devnull, os.O_WRONLY), 1)
        status = 3
    except (Fault, OSError, ValueError, subprocess.CalledProcessError) as why:
        print("%s: %s" % (name if name.startswith("iolb-") else os.path.relpath(sys.argv[0]), told(why)), file=sys.stderr)
        status = 3
    except KeyboardInterrupt:
        status = 130
    sys.exit(status)

"""The words of the command line."""
import argparse
import os
import secrets
import stat
import sys

TOP = os.path.dirname(os.path.dirname(os.path.dirname(os.path.abspath(__file__))))
CORE = "crates/redis_core_serve/out/redis_core_serve"
USAGE = 64  # the status of wrong words
# Its greatest; the core's own limit of 2^40 bytes would end a server that runs long.
MAX_INPUT = 2**62
# Options that the core knows and the relay hands on.
HANDED_ON = ["hash-max-entries", "set-max-entries", "zset-max-entries"]
HANDED_ON += ["hash-max-value", "set-max-value", "zset-max-value", "set-max-intset"]


class Parser(argparse.ArgumentParser):
    def error(self, message):
        self.print_usage(sys.stderr)
        self.exit(USAGE, f"serve: {message}\n")


def number(least, most):
    def read(text):
        if not (text.isascii() and text.isdigit() and least <= int(text) <= most):
            raise argparse.ArgumentTypeError(f"{text} is no number from {least} to {most}")
        return int(text)

    return read


def parser():
    words = Parser(prog="serve", description="Serves Redis clients from one core program.", allow_abbrev=False)
    words.add_argument("--port", type=number(0, 65_535), default=6379, help="TCP port, 6379 where it isn't said; 0 for any, which the first line names")
    words.add_argument("--host", default="127.0.0.1", help="address to listen on; this machine alone where it isn't said")
    words.add_argument("--unix", metavar="PATH", help="a unix socket to listen on too")
    words.add_argument("--load", metavar="FILE", help="the file to begin with")
    words.add_argument("--save", metavar="FILE", help="the file to save to at the end")
    words.add_argument("--max-clients", type=number(1, 65_000), default=10_000, metavar="N", help="10000 where it isn't said")
    words.add_argument("--effort", type=number(0, 100), metavar="N", help="steps of work between requests")
    words.add_argument("--seed", type=number(0, 2**64 - 1), metavar="N", help="seed of hashes and picks; drawn where it isn't said")
    words.add_argument("--core", metavar="PATH", help=f"the core program; {CORE} where it isn't said")
    for name in HANDED_ON:
        words.add_argument(f"--{name}", type=number(0, 65_536), metavar="N", help=argparse.SUPPRESS)
    return words


def read(words):
    """The options; ends the program by status 64 where the words are wrong or there is no core program."""
    read_by = parser()
    options = read_by.parse_args(words)
    if not options.core:
        options.core = os.path.join(TOP, CORE)
        how = "`rt ci` at the top of the repository builds it, and --core names another"
    else:
        how = "--core names no program"
    if not os.access(options.core, os.X_OK) or os.path.isdir(options.core):
        read_by.exit(USAGE, f"serve: there is no core program at {options.core}: {how}\n")
    return options


def core_words(options):
    """The command line of the core."""
    seed = secrets.randbits(64) if options.seed is None else options.seed
    words = [options.core, "--max-input", str(MAX_INPUT), "--seed", str(seed)]
    if options.effort is not None:
        words += ["--effort", str(options.effort)]
    for name in HANDED_ON:
        value = getattr(options, name.replace("-", "_"))
        if value is not None:
            words += [f"--{name}", str(value)]
    words += [f"--{name}={value}" for name, value in (("load", options.load), ("save", options.save)) if value is not None]
    return words


def is_socket(path):
    try:
        return stat.S_ISSOCK(os.stat(path).st_mode)
    except OSError:
        return False

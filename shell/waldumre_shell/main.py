"""The command line."""
import argparse
import os
import sys
import traceback

from .bad import Bad, listed
from .folder import open_shop
from .screen import Screen
from .session import Session

ABOUT = """Opens a folder of relations and puts questions in QUEL to them, each under the permits of the user who asks.
At a terminal it prompts; else it reads questions from standard input."""
END = """A folder has a file shop.toml, which names its relations (CSV files) and the permits of its users; waldumre(1) says how.
Exit status: 0 answered, 1 refused, 2 wrong usage or a folder that is not in order."""


def arguments(words):
    parser = argparse.ArgumentParser(prog="waldumre", description=ABOUT, epilog=END, allow_abbrev=False)
    parser.add_argument("folder", help="the folder to open")
    parser.add_argument("-c", metavar="TEXT", action="append", help="put this question, or run this command, and leave; may be given again")
    parser.add_argument("-u", "--user", help="who asks; the first user of shop.toml if not given")
    parser.add_argument("--format", choices=("table", "csv", "json"), default="table", help="how answers are shown")
    parser.add_argument("--echo", action="store_true", help="show each line of input with its prompt before what it gives")
    parser.add_argument("--seconds", type=seconds, help="leave a question after so many seconds")
    parser.add_argument("--page", action="store_true", help="serve a page on this machine's own address, for the projector")
    parser.add_argument("--port", type=port, default=0, help="of the page; a free one if not given")
    parser.add_argument("--beside", metavar="FOLDER", help="with --page: a second folder, whose users can be chosen too")
    return parser.parse_args(words)


def seconds(word):
    value = float(word)
    if not 0 < value < 1e6:
        raise argparse.ArgumentTypeError("not between 0 and 1000000")
    return value


def port(word):
    value = int(word)
    if not 0 <= value < 65536:
        raise argparse.ArgumentTypeError("not between 0 and 65535")
    return value


def main(words):
    sys.setrecursionlimit(20000)  # a text may have 986 parentheses, one inside the other
    for stream in (sys.stdin, sys.stdout, sys.stderr):
        stream.reconfigure(errors="backslashreplace")
    try:
        return run(arguments(words))
    except Bad as why:
        print(f"waldumre: {why}", file=sys.stderr)
        return 2
    except KeyboardInterrupt:
        print("waldumre: stopped", file=sys.stderr)
        return 130
    except BrokenPipeError:
        os.dup2(os.open(os.devnull, os.O_WRONLY), sys.stdout.fileno())  # whoever read has gone; nothing is left to say
        return 0
    except OSError as why:
        print(f"waldumre: {why}", file=sys.stderr)
        return 2
    except Exception as why:  # a fault of ours is a sentence too, with what a report needs
        last = traceback.extract_tb(why.__traceback__)[-1]
        print(f"waldumre: a fault of this shell, not of what was given: {type(why).__name__}: {why} "
              f"({os.path.basename(last.filename)}, line {last.lineno})", file=sys.stderr)
        return 2


def run(given):
    shop = open_shop(given.folder)
    user = shop.user(given.user) if given.user else next(iter(shop.users.values()))
    if given.page:
        from .page import serve
        return serve(shop, open_shop(given.beside) if given.beside else None, given.port, given.seconds)
    session = Session(shop, user, Screen(), given.format, given.seconds)
    if given.c:
        for text in given.c:
            if not script(session, text.split("\n"), given.echo):
                break
    elif sys.stdin.isatty():
        typing(session, shop)
        return 0
    else:
        script(session, sys.stdin, given.echo)
    return session.status


def typing(session, shop):
    try:
        from . import keyboard  # only here: readline is not needed for scripts
    except ImportError:
        raise Bad("this Python has no readline; put questions with -c or on standard input")
    keyboard.run(session, banner(shop))


def banner(shop):
    return [f"Waldumre {shop.engine.version()}, {shop.title}. Users: {listed(shop.users)}.",
            "A question ends with an empty line or a ';'. \\help for help, \\quit to leave.", ""]


def script(session, lines, echo):
    for line in lines:
        line = line.rstrip("\r\n")
        if echo:
            session.screen.say([f"{session.user.name}{'->' if session.pending() else '=>'} {line}".rstrip()])
        if not session.feed(line):
            return False
    session.finish()
    return True

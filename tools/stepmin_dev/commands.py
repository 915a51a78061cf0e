"""The commands of `tools/dev`, and the choice of one."""
import argparse
import importlib
import importlib.util
import os
import shutil
import signal
import sys

COMMANDS = {
    "build": "builds stepmin, before or after its proof",
    "check": "proves a crate, or some of its functions",
    "rt": "runs the toolchain's rt with less work for the same answers",
    "gate": "proves, tries and tests everything",
    "test": "tests the built program",
    "bench": "measures time and memory",
    "wrong": "tries the wrong bodies of wrong/, which the prover has to refuse",
    "doc": "writes the index of the crates",
    "lint": "checks pages, docstrings and lengths",
    "cost": "measures what the gate costs, crate by crate",
    "libraries": "takes over the libraries that a gate has built in another clone",
    "install": "installs the program, its manual page and completions",
    "package": "packs the same for other machines",
}


def is_there(module):
    """Whether a module of this package exists."""
    return importlib.util.find_spec(f"{__package__}.{module}") is not None


def run(module, arguments):
    """Runs a module of this package and returns its status; 2 if the module doesn't exist."""
    if not is_there(module):
        print(f"tools/stepmin_dev/{module.replace('.', '/')}.py doesn't exist", file=sys.stderr)
        return 2
    return importlib.import_module(f"{__package__}.{module}").main(arguments)


def is_missing_program(name):
    """Whether a name that can't be opened is that of a program, such as `rt` or `valgrind`, that isn't installed."""
    return isinstance(name, str) and "/" not in name and not shutil.which(name)


def missing_program(name):
    """A line that says that a program isn't installed."""
    return "Rattle's toolchain isn't there: `rt` isn't found" if name == "rt" else f"`{name}` isn't found: install it"


def main(arguments):
    """Runs a command with its arguments and returns its status."""
    width = max(map(len, COMMANDS))
    listed = "\n".join(f"  {name:{width}}  {what}" for name, what in COMMANDS.items())
    parser = argparse.ArgumentParser(
        prog="tools/dev", usage="tools/dev COMMAND ..", formatter_class=argparse.RawDescriptionHelpFormatter,
        description=f"Builds, proves, tests and measures stepmin.\n\ncommands:\n{listed}\n\n"
                    "`tools/dev COMMAND --help` explains a command.")
    parser.add_argument("command", choices=COMMANDS, metavar="COMMAND", help=argparse.SUPPRESS)
    command = parser.parse_args(arguments[:1]).command
    # SIGTERM ends a command as Ctrl-C does, so that temporary folders are removed.
    signal.signal(signal.SIGTERM, lambda *_: sys.exit(143))
    try:
        return run(command, arguments[1:])
    except FileNotFoundError as error:
        if not is_missing_program(error.filename):
            raise
        print(missing_program(error.filename), file=sys.stderr)
        return 1
    except KeyboardInterrupt:
        return 130
    except BrokenPipeError:
        sys.stdout = open(os.devnull, "w")
        return 141

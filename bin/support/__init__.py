"""What the scripts of bin and .ci in Python share: the folders of this repository, files, processes and pages. `texts` makes random texts,
`timing` measures programs, `chart` draws a chart, `labels` moves the labels of a picture, `peers` builds the programs of others that
ours are compared with, and `line_rules` is a model of rules."""
import argparse, importlib.machinery, importlib.util, os, re, shutil, signal, subprocess, sys, textwrap

TOP = os.path.realpath(os.path.join(os.path.dirname(os.path.realpath(__file__)), "..", ".."))
STANDS = os.path.join(TOP, "bin", "program")  # the programs and the C library, as they were proved and built
LIBRARY = "chromesquid_c"  # the crate of the C library
PART = r"(<!-- `{}` writes what follows -->\n).*?(<!-- and ends here -->)"


def read(path, **how):
    """The text of a file, whose path may begin at the top of the repository."""
    with open(os.path.join(TOP, path), encoding="utf-8", **how) as file:
        return file.read()


def write(path, content):
    """Writes a file of text or bytes, whose folder is made if it is not there, and answers its path."""
    os.makedirs(os.path.dirname(path) or ".", exist_ok=True)
    with open(path, "wb") as file:
        file.write(content if isinstance(content, (bytes, bytearray)) else content.encode())
    return path


def write_lines(path, lines):
    """Writes a file of these lines."""
    return write(path, "".join(f"{it}\n" for it in lines))


def loaded(path, name=None):
    """A script as a module."""
    name = name or os.path.basename(path)
    loader = importlib.machinery.SourceFileLoader(name, os.path.join(TOP, path))
    sys.modules[name] = module = importlib.util.module_from_spec(importlib.util.spec_from_loader(name, loader))
    loader.exec_module(module)
    return module


def of_sources(lines, *words):
    """Runs lines of shell over these words, by the functions of bin/program/sources."""
    call = ["sh", "-uc", f'. "$top/bin/program/sources"\n{lines}', "sh", *words]
    return subprocess.run(call, env={**os.environ, "top": TOP, "CDPATH": ""}, stdout=subprocess.PIPE, text=True, check=False)


def stands_built(crate):
    """Whether the program, or the library, in bin/program was built from these sources."""
    asked = 'is_library_of_these_sources "$top/bin/program"' if crate == LIBRARY else 'is_of_these_sources "$1"'
    return of_sources(asked, crate).returncode == 0


def program_of(name):
    """Where our program stands: in bin/program, if it was built from these sources, else where `rt run` leaves it."""
    return os.path.join(STANDS, name) if stands_built(name) else os.path.join(TOP, "crates", name, "out", name)


def proved(name):
    """The path of our program, which is proved and built first if it was not built from these sources; none where that fails."""
    return of_sources('proved "$1"', name).stdout.strip()


def compiler():
    """The name of a C compiler that is on the path, or none."""
    return next(filter(shutil.which, ("cc", "gcc", "clang")), None)


def end_of(child, seconds, given=None):
    """What a process writes to its end. After so many seconds it is killed, with its group, and the answer is none."""
    try:
        return child.communicate(given, timeout=seconds)
    except subprocess.TimeoutExpired:
        os.killpg(child.pid, signal.SIGKILL)
        return None


def wrapped(lines):
    """Yields lines of at most 100 columns, but every row of a table as one line."""
    for line in "\n".join(lines).split("\n"):
        if line.startswith("|") or len(line) <= 100:
            yield line
        else:
            indent = "  " if line.startswith(("- ", "  ")) else ""  # the lines of a list stay below its mark
            yield from textwrap.wrap(line, 100, subsequent_indent=indent, break_long_words=False, break_on_hyphens=False)


def write_part(command, lines):
    """Writes these lines into docs/SPEED.md, between the marks that name the command."""
    part = "\n".join(wrapped(lines))
    page = re.sub(PART.format(re.escape(command)), lambda it: f"{it[1]}{part}\n{it[2]}", read("docs/SPEED.md"), count=1, flags=re.S)
    write(os.path.join(TOP, "docs", "SPEED.md"), page)


def refuse(why):
    """Ends the script where an argument is wrong, or something is missing."""
    print(f"{os.path.basename(sys.argv[0])}: {why}", file=sys.stderr)
    sys.exit(2)


def options(told, **known):
    """The options of a script, by what it says of itself: each has a default, or a type where there is none, and False where it has no value."""
    parser = argparse.ArgumentParser(description=told, formatter_class=argparse.RawDescriptionHelpFormatter, usage=argparse.SUPPRESS)
    for name, default in known.items():
        option = f"-{name}" if len(name) == 1 else f"--{name}"
        if default is False:
            parser.add_argument(option, action="store_true")
        else:
            value, kind = re.search(rf"{option} ([A-Z]+)", told), default if isinstance(default, type) else type(default)
            parser.add_argument(option, type=kind, default=None if kind is default else default, metavar=value and value[1])
    return parser


def helps(words, told):
    """Ends where a script is asked for help, by what is told of it."""
    if words in (["-h"], ["--help"]):
        print(told)
        sys.exit(0)


def makes(script, words, told, files, source):
    """The work of a script that makes files: it writes these, by their paths from the top on, or with --check tells of each that is not what the
    source gives. The answer is its status."""
    helps(words, told)
    if words not in ([], ["--check"]):
        print(f"usage: {script} [--check]", file=sys.stderr)
        return 2
    status = 0
    for path, text in files.items():
        if not words:
            write(os.path.join(TOP, path), text)
        elif not os.path.isfile(os.path.join(TOP, path)) or read(path) != text:
            print(f"{os.path.basename(script)}: {path} is not what {source} gives: run {script}", file=sys.stderr)
            status = 1
    return status

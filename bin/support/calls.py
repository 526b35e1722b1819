"""Random calls of a program, compared with what others or a slow model do: for bin/compare-acgrep and bin/compare-acredact."""
import collections, json, os, pathlib, random, re, sys, tempfile
from . import options, program_of

TOLD = 3  # so many calls that differ are told, and of others how many they are


def asked(name, told, **known):
    """What a script is asked for, by its own options and those that both have, with the whole path of the program, which has to be there."""
    asked = options(told, s=1, p=program_of(name), **known).parse_args()
    if not os.path.exists(asked.p):
        sys.exit(f"{os.path.basename(sys.argv[0])}: there is no {asked.p}: bin/refresh-programs or bin/unproved builds it")
    asked.p = os.path.abspath(asked.p)
    return asked


def files_in(folder):
    """A line for each file of a folder, with how it begins."""
    for path in sorted(pathlib.Path(folder).rglob("*")):
        if path.is_file():
            yield f"  {str(path.relative_to(folder))!r}: {path.read_bytes()[:300]!r}"


def in_json(text):
    """A text as a string of JSON, as our programs write it."""
    told = '"' + re.sub(r"[\0-\x1f]", lambda it: f"\\u{ord(it[0]):04X}", re.sub(r'["\\]', r"\\\g<0>", text)) + '"'
    if json.loads(told) != text:
        sys.exit(f"{os.path.basename(sys.argv[0])}: {told} is not {text!r} in JSON")
    return told


def compared(what, call, program, seed, count):
    """Makes so many random calls from a seed, and answers how many differ. `call(program, dice, folder)` makes one, in a folder that is the same
    for all, and answers its status and what differs, or none."""
    dice, statuses, wrong = random.Random(seed), collections.Counter(), 0
    with tempfile.TemporaryDirectory() as folder:
        os.chmod(folder, 0o755)
        for number in range(count):
            status, difference = call(program, dice, folder)
            statuses[status] += 1
            wrong += difference is not None
            if difference is not None and wrong <= TOLD:
                print(f"call {number}: {difference}", *files_in(folder), sep="\n", flush=True)
    ends = ", ".join(f"{often:,} with {status}" for status, often in sorted(statuses.items()))
    print(f"{os.path.basename(sys.argv[0])}: {count:,} calls {what}, {wrong} differ; of these end {ends}", flush=True)
    return wrong

"""A slow model of rules for secrets, over Python's expressions, and random rules: for the scripts that compare what programs do by them."""
import json, os, re, subprocess

LONGEST = 1048576  # bytes of the longest line that is searched, where no option says otherwise

# Expressions that mean the same to Python and to the program.
EXPRESSIONS = ["a+", "b(a*)c", "(a)|(b)", "x*", r"\bab\b", "a(b)?(c)?", "(?i)AB", "ab*$", "^a", "c.", "[ab]{2}", "(b)a*", r"[\w-]{3,}", r"\s(\S+)", "a|ab|abc", "(a*)(b*)", r"\x61.{2}"]


def rule(name, regex, **more):
    """A rule that marks by its expression alone, but for what more is said."""
    return {"id": name, "regex": regex, "expression": re.compile(regex.encode()), "keywords": [], "group": 0, "until": None, "with": None, **more}


def some_rules(dice, letters, ids=()):
    """Rules as a file of TOML has them: their names, of these or of their own, expressions and keys."""
    rules = []
    for number in range(dice.randint(0, 3)):
        text = lambda: bytes(dice.choices(letters, k=dice.randint(1, 2)))  # noqa: E731
        regex = dice.choice(EXPRESSIONS)
        name, keywords = dice.choice(ids or [f"r{number}"]), [text() for _ in range(dice.choice([0, 0, 1, 2]))]
        group = dice.randint(0, re.compile(regex).groups) if dice.random() < 0.5 else 0
        until = text() if dice.random() < 0.3 else None
        own = dice.choice([b"", b"<>", b"a"]) if dice.random() < 0.3 else None
        rules.append(rule(name, regex, keywords=keywords, group=group, until=until, **{"with": own}))
    return rules


def some_files(dice):
    """Letters, and files of these: two, and standard input."""
    letters = dice.choice([b"ab", b"abc", b"abcx ", b"ab_C =", b'aAbB:"'])
    return letters, {name: bytes(dice.choices(letters + b"\n", k=dice.randint(0, dice.choice([8, 40, 90])))) for name in ("one", "two", "-")}


def in_toml(rules):
    """The text of a file of these rules, with keys that are not heeded."""
    lines = ['title = "x"']
    for rule in rules:
        lines += ["[[rules]]", f"id = {json.dumps(rule['id'])}", f"regex = '''{rule['regex']}'''", "entropy = 9.5", "path = '''none'''"]
        lines += ["keywords = [" + ", ".join(f"'{it.decode()}'" for it in rule["keywords"]) + "]"] * bool(rule["keywords"])
        lines += [f"secretGroup = {rule['group']}"] * bool(rule["group"])
        lines += [f"{key} = '{rule[key].decode()}'" for key in ("until", "with") if rule[key] is not None]
        lines += ["[[rules.allowlists]]", "stopwords = ['a']"]
    return "\n".join(lines) + "\n"


def matches_of(expression, line):
    """All matches, each as far to the left as can be; an empty one right behind another is none."""
    last = -1
    for match in expression.finditer(line):
        if match.span() != (last, last):
            yield match
        last = match.end()


def secret_in(rule, match):
    """The range of the secret in a match."""
    groups = [rule["group"]] * bool(rule["group"]) + [*range(1, rule["expression"].groups + 1)]
    return next((match.span(it) for it in groups if -1 < match.start(it) < match.end(it)), match.span())


def marks_in(rules, goes_on, line):
    """What each rule marks in a line, with its number; of those that mark up to a text it is noted which go on."""
    for number, rule in enumerate(rules):
        applies = not rule["keywords"] or any(it.lower() in line.lower() for it in rule["keywords"])
        matches = [*matches_of(rule["expression"], line)] if applies else []
        if rule["until"] is None:
            yield from ((*secret_in(rule, it), number) for it in matches)
            continue
        if goes_on[number]:
            yield 0, len(line), number
        behind = [it.end() for it in matches] + [0] * goes_on[number]
        goes_on[number] = any(line.find(rule["until"], it) < 0 for it in behind)
        yield from ((it.start(), len(line), number) for it in matches)


def runs_of(found):
    """The runs of what is covered: those that overlap or touch are one, with the number of the longest that begins where it does."""
    runs = []
    for begin, end, number in sorted(found, key=lambda m: (m[0], -m[1], m[2])):
        if runs and begin <= runs[-1][1]:
            runs[-1][1] = max(runs[-1][1], end)
        else:
            runs.append([begin, end, number])
    return runs


def lines_in(rules, most, text, count=0, others=lambda line: ()):
    """Each line of a text with the runs in it: of what else is found there, by so many numbers, and behind these of what rules mark."""
    goes_on = [False] * len(rules)
    for line in text.split(b"\n"):
        if len(line) > most:
            [*marks_in(rules, goes_on, b"")]
            yield line, [[0, len(line), count + len(rules)]]
            continue
        marks = [(begin, end, count + number) for begin, end, number in marks_in(rules, goes_on, line) if begin < end]
        yield line, runs_of([*others(line), *marks])


def in_parts(dice, text):
    """A pipe that gives a text: at once, or where the system does so part by part, each to a read of its own."""
    cut = dice.random() < 0.6
    reads, writes = os.pipe2(os.O_DIRECT if cut else 0)
    for size in [*(dice.randint(1, 8) for _ in range(13 * cut)), len(text)]:
        part, text = text[:size], text[size:]
        if part:
            os.write(writes, part)
    os.close(writes)
    return reads


def end_of(dice, program, call, folder, given):
    """The status of a call that reads this text, what it writes, and the lines that it tells."""
    pipe = in_parts(dice, given)
    ran = subprocess.run([program, *call], cwd=folder, stdin=pipe, capture_output=True, timeout=60)
    os.close(pipe)
    return ran.returncode, ran.stdout, os.fsdecode(ran.stderr).split("\n")[:-1]

"""Finds phrases that make a text read like a translation.

`found` takes a file and its text, and yields each such phrase with its line and with what to write instead. In pages and manual
pages it reads everything except code, and in sources only comments and strings. `.ci/documents` says which files it reads.

To allow or forbid a phrase, change PHRASES. A text without a phrase from this list is not yet good: read it aloud."""
import re

# What to write instead, and the expression for the phrases. A space also matches a line end.
PHRASES = {
    "after": r"behind",
    "next to, compared with": r"beside",
    "reports, says": r"(tells?|told)(?! apart)",
    "is, appears": r"stands?(?! for\b)",
    "with --kind, with rules": r"by (kind|rules)",
    "say it again, with its subject": r"(so|nor) (does|do|is|are)",
    "fix": r"mends?",
    "depends on": r"hangs? on",
    "belongs to": r"(is|are) of",
    "start, prefix": r"the begin|its begin|begins of",
    "cannot be combined": r"do(es)? not go (together|with)",
    "is not valid": r"means nothing",
    "writes, leaks": r"pass(es|ed)? on",
    "single": r"lone",
    "the name of the thing": r"that of (its|the|a|(?=--))",
    "in any": r"in whatever",
    "size, length, number": r"how (large|long|many) (it|they) (is|are)",
    "if no": r"where (no|nothing|none)",
    "allocates": r"takes? (no )?memory",
    "at most; default": r"not of more than",
    "with the option": r"(is|are) asked for",
    "a whole sentence": r"what (nothing|no)|of (each|several) the|of equal|gives? no \d+",
}
# A phrase begins and ends at the edge of a word.
EXPRESSIONS = [(re.compile(rf"(?i)(?<!\w)(?:{words})(?!\w)".replace(" ", r"\s+")), instead) for instead, words in PHRASES.items()]

PAGE_CODE = r"(?ms)^\s*```.*?^\s*```|^    [^\n]*|`[^`\n]*(?:\n[^`\n]+)?`|\]\([^)\s]*\)|<!--.*?-->"
MANUAL_CODE = r"(?ms)^\.(?:nf|EX)$.*?^\.(?:fi|EE)$"
NAMES = r"`[^`\n]*`"  # names in comments and strings
COMMENT_OR_STRING = {
    ".py": r"""(?s)\"{3}.*?\"{3}|#[^\n]*|"(?:[^"\\\n]|\\.)*"|'(?:[^'\\\n]|\\.)*'""",
    "": r"""(?s)'(?:[^'\\\n]|\\.)'|/\*.*?\*/|//[^\n]*|"(?:[^"\\]|\\.)*\"""",
}
CODE = "`"  # replaces code, so that no phrase reaches across it
SHORT = 12  # a shorter string is a word for a program, not a sentence


def blanked(expression, text, mark=" "):
    """Returns the text with a mark for each character where the expression matches, so that every line keeps its number."""
    return re.sub(expression, lambda it: re.sub(r"\S", mark, it[0]), text)


def sentences_of_source(text, ending):
    """Returns the text with spaces for everything except comments and long strings."""
    prose = re.sub(r"\S", " ", text)
    for it in re.finditer(COMMENT_OR_STRING.get(ending, COMMENT_OR_STRING[""]), text):
        if it[0][0] not in "\"'" or len(it[0]) >= SHORT:
            prose = prose[: it.start()] + it[0] + prose[it.end() :]
    # A phrase may continue after the mark of a comment at the start of the next line.
    return blanked(r"(?m)^\s*(?://[/!]?|#|\*)", blanked(NAMES, prose, CODE))


def prose_of(file, text):
    """Returns the sentences of a file, each where it is in the file, with spaces for everything else."""
    ending = file[file.rindex(".") :]
    if ending == ".md":
        return blanked(PAGE_CODE, text, CODE)
    if ending in (".1", ".3"):
        return blanked(MANUAL_CODE, text, CODE)
    return sentences_of_source(text, ending)


def found(file, text):
    """Yields the line of each phrase, the phrase, and what to write instead."""
    prose = prose_of(file, text)
    for expression, instead in EXPRESSIONS:
        for it in expression.finditer(prose):
            yield prose.count("\n", 0, it.start()) + 1, " ".join(it[0].split()), instead

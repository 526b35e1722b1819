"""What `.ci/gate` knows of the texts of a crate, as rt fmt lays them out: which functions an edit makes wrong, how it is made in a copy of its
function, and the copy of the crate in which a hole stands in place of each other proof. Nothing here calls the kit."""
import copy, functools, os, re, shutil

# A function's first line, and the line of the impl or trait around it.
FN = re.compile(r"^( *)(?:pub(?:\([\w: ]+\))? |const |final |unsafe |extern \"C\" )*fn (\w+)")
AROUND = re.compile(
    r"^(?:unsafe )?(?:impl\b(?:<(?P<params>.*?)>)? (?:(?P<of>\w[^ ]*) for )?(?P<type>(?:&(?:'\w+ )?)?\[?\w+)"
    r"|(?:pub(?:\([\w: ]+\))? )?trait (?P<trait>\w+))"
)
# Where a type is declared.
DECLARED = re.compile(r"(?m)^(?:pub(?:\([\w: ]+\))? )?(?:struct|enum|trait) (\w+)")
# In a proof file: what begins a block that stays as it is, a signature with no mark that opens its clauses, and names that are unfolded.
BLOCK = re.compile(r"( *)(?:(?:pub|unfoldable|abbrev|pattern|axiom) )*(?:mutual|data|record|ruleset|use|open|infix[lr]?)\b(?! *:)")
SIGNATURE = re.compile(r"( *)(?:pub )?([^\s:(){},]+)(?: \{[^}]*\})* :(?=\s|$)")
UNFOLDED = re.compile(r"^ *unfolding ([^\n]*)|\bunfold ([^\n]*?) in\b", re.M)


def read(path):
    with open(path, encoding="utf-8") as it:
        return it.read()


def written(path, text):
    os.makedirs(os.path.dirname(path), exist_ok=True)
    with open(path, "w", encoding="utf-8") as it:
        it.write(text)


class Function:
    """Where a function, its body and the comments behind it stand in a text, and how the prover calls it."""

    def __init__(self, label, indent, head, is_const, is_alone):
        self.label, self.indent, self.head, self.is_const, self.is_alone = label, indent, head, is_const, is_alone
        self.start = self.end = self.behind = None

    def opens(self, line):
        """A body opens on a line of its own, or at the end of the function's only line or of its last one."""
        return self.start is None and (line == self.indent + "{" or re.match(self.indent + r"\S.*\{$", line))

    def is_changed(self, at, old, new):
        """Whether a change of `old` at this place is one of the body: within it, or put behind a clause or before what follows."""
        within = self.start <= at and at + len(old) <= self.end
        begins = self.head <= at < self.start and new.startswith(old)
        ends = self.end <= at < self.behind and old.strip().startswith("///") and "fn " not in new
        return within or begins or ends


def type_of(line):
    """The type or trait of an impl or a trait that begins in this line, as the prover writes it."""
    head = AROUND.match(line)
    if not head or head["trait"]:
        return head["trait"] if head else ""
    params = [it.partition(":")[0].strip() for it in (head["params"] or "").split(",")]
    parts = [{"&": "Ref", "[": "Slice"}.get(it) or it[0].upper() + it[1:] for it in re.findall(r"&|\[|\b(?<!')\w+", head["type"]) if it not in params]
    of = "" if head["of"] == "Drop" else head["of"] or ""  # the prover counts `drop` among a type's own functions
    return "".join(parts) + re.sub(r"\w+::|'\w+|\W", "", of)


@functools.cache
def declared_in(folder):
    """By name, the files of a crate that declare such a type."""
    found = {}
    for at, _, names in os.walk(f"{folder}/src"):
        for file in (f"{at}/{it}" for it in names if it.endswith(".rt")):
            for name in DECLARED.findall(read(file)):
                found.setdefault(name, []).append(os.path.relpath(file, folder))
    return found


def module_of(crate, path):
    parts = path.removeprefix("src/").removesuffix(".rt").split("/")
    return [crate, *(parts if parts not in (["lib"], ["main"]) else [])]


def functions_of(crate, folder, path, text):
    """The functions of a text that rt fmt has laid out. A type's own functions are called after the file that declares the type."""
    found, around, is_alone, fn, at = [], "", True, None, 0
    for line in text.split("\n"):
        if re.match(r"[^\s})]", line) and not line.startswith("where"):
            around, is_alone = type_of(line), not re.match(r"(pub(\([\w: ]+\))? )?trait |(unsafe )?impl\b.* for ", line)
            homes = declared_in(folder).get(around, []) if is_alone else []
            module = module_of(crate, path if path in homes or len(homes) != 1 else homes[0])
        head = FN.match(line)
        if head and (fn is None or fn.start is None):  # a function of a trait may have no body
            fn = Function("::".join([*module, *([around] if head[1] and around else []), head[2]]), head[1], at, "const " in head[0], is_alone)
        if fn and fn.opens(line):
            fn.start = at + len(line)
        elif fn and line == fn.indent + "}":
            if fn.start is not None:
                fn.end = at
                fn.behind = at + re.match(r"\s*\}\n(\s*(//.*)?\n)*\s*(//.*)?", text[at:]).end()
                found.append(fn)
            fn = None
        at += len(line) + 1
    return found


class Edit:
    """The functions that an edit makes wrong, none where that is not known; the names of those that it adds; and whether it changes nothing
    but bodies."""

    def __init__(self, crate, folder, file):
        self.file, self.pairs, self.labels, self.added, self.is_of_bodies = file, [], set(), set(), True
        self.goal = self.kept = None
        named = set()
        path = old = None
        with open(file, encoding="utf-8") as it:
            for line in it.read().split("\n"):
                if line.startswith("file: "):
                    path = line.removeprefix("file: ").strip()
                elif line.startswith("old: "):
                    old = line.removeprefix("old: ")
                elif line.startswith("# goal: "):
                    self.goal = line.removeprefix("# goal: ").strip()
                elif line.startswith("fn: "):
                    named.add(f"{crate}::{line.removeprefix('fn: ').strip()}")
                elif line.startswith("new:"):
                    self.pairs.append((path, old, line.removeprefix("new:").removeprefix(" ")))
        texts = {}
        for path, old, new in self.pairs:
            if path not in texts:
                with open(f"{folder}/{path}", encoding="utf-8") as it:
                    texts[path] = it.read()
            text, at = texts[path], texts[path].find(old)
            texts[path] = text.replace(old, new, 1)
            inside = [it.label for it in functions_of(crate, folder, path, text) if it.is_changed(at, old, new)]
            adds = old.strip() in new and re.match(r"\s*(pub(\([\w: ]+\))? )?fn \w+", new)
            if adds and not inside:
                self.added.update({*re.findall(r"\bfn (\w+)", new)} - {*re.findall(r"\bfn (\w+)", old)})
            if not path.startswith("src/") or not inside and not adds:
                self.labels, self.is_of_bodies = named, False
                return
            self.labels.update(inside)

    def applied(self, texts, folder):
        """The texts with this edit, or None where it does not fit beside the others."""
        texts = dict(texts)
        for path, old, new in self.pairs:
            if path not in texts:
                with open(f"{folder}/{path}", encoding="utf-8") as it:
                    texts[path] = it.read()
            if texts[path].count(old) != 1:
                return None
            texts[path] = texts[path].replace(old, new)
        return texts


def only_ensuring(head, indent, clause, answers):
    """The head of a function that ensures this clause alone, or its first one where none is named, and the names of the clauses left. Where
    there are answers another clause stays, the shortest that they do not name: beside no other one a goal is not called after its clause."""
    names = re.findall(rf"(?m)^{indent}    ensures (\w+) ", head)
    others = [it for it in re.findall(rf"(?m)^{indent}    ensures (\w+) (.*\}})$", head) if it[0] != clause and f"-clause-{it[0]} " not in answers]
    kept = {clause or names[0], *([min(others, key=lambda it: len(it[1]))[0]] if answers and others else [])} if names else set()
    if not kept < {*names} or answers and len(kept) < 2 or len(names) != len(re.findall(rf"(?m)^{indent}    ensures", head)):
        return head, None
    lines, is_kept = [], True
    for line in head.split("\n"):
        if not re.match(rf"{indent}    [\s)}}\]]", line):
            ensures = re.match(rf"{indent}    ensures (\w+) ", line)
            is_kept = not ensures or ensures[1] in kept
        lines += [line] if is_kept else []
    return "\n".join(lines), kept


class Copy:
    """An edit that is made in a copy of its function, which stands behind it under a name of its own, with the same contract and the same
    proof. So another edit of the function can be made in the same check. Where an edit names the goal that it makes false, the copy
    ensures the clause of that one alone, or one more: a goal is the same beside fewer others."""

    def __init__(self, edit, number, folder):
        """Without labels where it cannot be made so: the function is one of a trait, calls itself, or is not all that is changed."""
        self.file, self.labels, self.added, self.source, self.adds = edit.file, set(), {f"{it}_{number}" for it in edit.added}, None, []
        self.path, self.is_cut, self.goal, self.kept = edit.pairs[0][0], False, edit.goal, None
        renamed = lambda text: re.sub(rf"\b({'|'.join(edit.added)})\b", rf"\1_{number}", text) if edit.added else text
        text = read(f"{folder}/{self.path}")
        before = text
        for path, old, new in edit.pairs:
            if old.strip() in new and {*re.findall(r"\bfn (\w+)", new)} & edit.added:
                self.adds.append((old, renamed(new)))
            elif path == self.path and text.count(old) == 1:
                text = text.replace(old, renamed(new))
            else:
                return
        crate = [*edit.labels][0].split("::")[0]
        own, other = ({it.label: it for it in functions_of(crate, folder, self.path, it) if it.label in edit.labels} for it in (text, before))
        if not edit.is_of_bodies or len(edit.labels) != 1 or not {*own} == {*other} == edit.labels:
            return
        ((label, fn),) = own.items()
        name, begin, end = label.split("::")[-1], fn.head, fn.end + len(fn.indent) + 2
        while above := re.search(rf"(?m)^{fn.indent}#\[.*\n\Z", text[:begin]):
            begin = above.start()
        whole = before[: other[label].head] + before[other[label].end :] == text[: fn.head] + text[fn.end :]
        if whole and fn.is_alone and len(re.findall(rf"\b{name}\b", text[begin:end])) == 1:
            answers = f"{folder}/proofs/{'/'.join(label.split('::')[1:])}/Answers.antt"
            answers, clause = read(answers) if os.path.isfile(answers) else "", clause_of(edit.goal) if edit.goal else ""
            head = text[begin : fn.start]
            if clause or edit.goal and not answers:
                head, self.kept = only_ensuring(head, fn.indent, clause, answers)
            self.is_cut = self.kept is not None
            self.text = "\n" + re.sub(rf"\bfn {name}\b", f"fn {name}_{number}", head) + text[fn.start : end]
            self.labels, self.source = {f"{label}_{number}"}, label

    def applied(self, texts, folder):
        text = texts.get(self.path) or read(f"{folder}/{self.path}")
        for old, new in self.adds:
            if text.count(old) != 1:
                return None
            text = text.replace(old, new)
        crate = self.source.split("::")[0]
        ends = [it.end + len(it.indent) + 2 for it in functions_of(crate, folder, self.path, text) if it.label == self.source]
        return {**texts, self.path: text[: ends[0]] + self.text + text[ends[0] :]} if len(ends) == 1 else None

    def proofs(self, folder, room):
        """Gives the copy what the function is proved by."""
        ((label,), source) = (self.labels, self.source)
        own, other = ("/".join(it.split("::")[1:]) for it in (label, source))
        for name in ("Answers.antt", "Invariants.antt", "Proof.antt"):
            if os.path.isfile(f"{folder}/proofs/{other}/{name}"):
                there = re.compile(rf"(\.(?:proofs|specs\.contracts)\.){re.escape(other.replace('/', '.'))}(?=\.|\s)")
                text = there.sub(rf"\g<1>{own.replace('/', '.')}", read(f"{folder}/proofs/{other}/{name}"))
                written(f"{room}/proofs/{own}/{name}", text)


def goes_on(line, indent):
    """Whether a line goes on with what began at this indent."""
    return not line.strip() or line.startswith(indent + " ") or line.startswith(indent) and line[len(indent)] in "})]"


def last_of(lines, at, indent):
    """The place behind the lines that go on with the one before `at`."""
    while at < len(lines) and goes_on(lines[at], indent):
        at += 1
    return at


def clause_of(goal):
    """The clause of its function that this goal is of, if it is one of those at the ways out and not of a call."""
    named = re.fullmatch(r"returns(?!.*-requires-).*-clause-(\w+)", goal)
    return named[1] if named else ""


def without_lemmas(text, unfolded, clauses=None):
    """The text of a proof file with a hole in place of each lemma's proof: of each declaration whose clauses are shut, as they are
    where no mark opens them and no text names it to unfold it. Answers to goals of other clauses than these, if any are given, go."""
    lines, made, at = text.split("\n"), [], 0
    while at < len(lines):
        block, head = BLOCK.match(lines[at]), SIGNATURE.match(lines[at])
        end = behind = last_of(lines, at + 1, block[1] if block else head[1]) if block or head else at + 1
        if head and not block and head[2] not in unfolded:
            if behind < len(lines) and lines[behind].startswith(head[1] + "unfolding "):
                end = behind = behind + 1
            while behind < len(lines) and re.match(rf"{head[1]}{re.escape(head[2])}(\s|$)", lines[behind]) and not SIGNATURE.match(lines[behind]):
                behind = last_of(lines, behind + 1, head[1])
        clause = clause_of(head[2]) if head and behind > end else ""
        if not clauses or not clause or clause in clauses:
            made += [*lines[at:end], *([f"{head[1]}{head[2]} = ?", ""] if behind > end else [])]
        at = behind
    return "\n".join(made)


def hole_for(label):
    """A proof file with a hole in place of the function's proof."""
    name, module = label.split("::")[-1], ".".join(["proofs", *label.split("::")[1:]])
    return f"use Rattle.{label.split('::')[0]}.{module}.Statement.{{statement}}\n\npub {name}_spec : {{M : Type 1}} → statement M\n{name}_spec = ?\n"


def with_holes(parts, crate, texts, edits, room):
    """Makes a copy of the crate in this folder, and returns it and the texts of its code. It has a hole in place of the proof of each
    lemma and of each function but these, and no such function has a body: what another one promises stands in its contract alone."""
    labels, added = {label for it in edits for label in it.labels}, {name for it in edits for name in it.added}
    made = copy.copy(crate)
    made.folder = room
    for part in parts:
        if os.path.isdir(f"{crate.folder}/{part}"):
            shutil.copytree(f"{crate.folder}/{part}", f"{room}/{part}")
    files = {kind: [f"{at}/{it}" for at, _, names in os.walk(room) for it in names if it.endswith(kind)] for kind in (".rt", ".antt")}
    unfolded = {word for it in files[".antt"] for words in UNFOLDED.findall(read(it)) for word in "".join(words).split()}
    for it in files[".antt"]:
        if it.startswith(f"{room}/proofs/") and not it.endswith(("/Answers.antt", "/Invariants.antt", "/Proof.antt")):
            written(it, without_lemmas(read(it), unfolded))
    texts = dict(texts)
    for path in (os.path.relpath(it, room) for it in files[".rt"]):
        text, tests, rest = (texts.get(path) or read(f"{room}/{path}")).partition("#[cfg(test)]")
        for fn in reversed(functions_of(crate.name, crate.folder, path, text)):
            if fn.label not in labels and fn.label.split("::")[-1] not in added and not fn.is_const:
                folder = f"{room}/proofs/{'/'.join(fn.label.split('::')[1:])}"
                for name in ("Answers.antt", "Invariants.antt"):
                    if os.path.isfile(f"{folder}/{name}"):
                        os.remove(f"{folder}/{name}")
                written(f"{folder}/Proof.antt", hole_for(fn.label))
                lines = text.count("\n", fn.start, fn.end)  # as many as the body has, so that what is told names the same lines
                text = f"{text[:fn.start]}\n{fn.indent}    loop {{}}" + "\n" * (lines - 1) + text[fn.end:]
        texts[path] = text + tests + rest
    for it in edits:
        if isinstance(it, Copy):
            it.proofs(crate.folder, room)
        answers = [f"{room}/proofs/{'/'.join(label.split('::')[1:])}/Answers.antt" for label in it.labels if it.goal]
        for path in filter(os.path.isfile, answers):
            written(path, without_lemmas(read(path), {*unfolded, it.goal}, it.kept))
    return made, texts

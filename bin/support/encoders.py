"""Encoders of other programs, for bin/compare-acredact: each writes the secrets that it is given as arguments, with a zero byte after each."""
import collections, os, re, shutil, string, subprocess

# TEXT: secrets of whole characters alone, as what takes no other bytes needs. BYTES: of any byte but zero.
Encoder = collections.namedtuple("Encoder", "name words takes")
TEXT, BYTES = "text", "bytes"


def python(name, code, takes=TEXT):
    head = "import sys, os, json, html, shlex, urllib.parse, base64, re\nfor it in sys.argv[1:]:\n    raw = os.fsencode(it)\n    made = "
    tail = "\n    sys.stdout.buffer.write((made.encode('utf-8', 'surrogateescape') if isinstance(made, str) else made) + b'\\0')\n"
    return Encoder(f"python3 {name}", ["python3", "-X", "utf8", "-c", head + code + tail], takes)


def perl(name, code, takes=BYTES):
    return Encoder(f"perl {name}", ["perl", "-e", f"use utf8; use Encode; use JSON::PP; for my $it (@ARGV) {{ print {code}, qq(\\0) }}"], takes)


def php(name, code, takes=TEXT):
    return Encoder(f"php {name}", ["php", "-r", f"foreach (array_slice($argv, 1) as $it) echo {code}, \"\\0\";", "--"], takes)


def ruby(name, code, takes=TEXT):
    head = "require 'json'; require 'shellwords'; require 'cgi'; require 'erb'; require 'uri'; $stdout.binmode; "
    return Encoder(f"ruby {name}", ["ruby", "-Ku", "-e", f"{head}ARGV.each {{ |it| print(({code}), 0.chr) }}", "--"], takes)


def node(name, code, takes=TEXT):
    return Encoder(f"node {name}", ["node", "-e", f"for (const it of process.argv.slice(1)) process.stdout.write(({code}) + '\\0')", "--"], takes)


def shell(program, name, code, takes=BYTES, locale="C.UTF-8"):
    """A loop of a shell over its arguments, of which each is `$it`."""
    return Encoder(f"{program} {name}", ["env", f"LC_ALL={locale}", program, "-c", f'for it in "$@"; do {code}; printf "\\0"; done', program], takes)


# Encoders that leave a part of some secrets, the kinds of these, and why.
UNPRINTABLE = "which characters beyond ASCII are printable depends on the system's tables, and both kinds are in one secret"
KNOWN = [
    ("bash (%q|@Q)|bash set -x|ls .* in C.UTF-8|zsh .*|go %q|python3 repr", "characters bytes", UNPRINTABLE),
    (r"zsh \(qqqq\)", "marks controls", "a backslash before `!` within `$'` and `'` is not listed"),
    ("fish .*", "marks controls characters", "fish leaves `=` as it is, and the list does not"),
    ("ksh %q", "marks controls characters", "ksh begins its quotes within a word, and has brackets round a number before a hexadecimal digit"),
    ("python3 json in json", "marks controls characters", "a form of a form is found by its own name: json+json"),
]
# How encoders that write numbers write what stands before and after a secret.
NUMBERS = {"python3 hex with spaces": "%02x", "python3 hex with colons": "%02X", "python3 list of bytes": "%d", "go %v of bytes": "%d", "go % x": "%02x", "go % X": "%02X"}

GO = r"""package main
import ("encoding/json"; "bytes"; "fmt"; "net/url"; "os"; "strconv"; "html"; "encoding/xml")
func main() {
	for _, it := range os.Args[2:] {
		var made string
		switch os.Args[1] {
		case "json": b, _ := json.Marshal(it); made = string(b)
		case "json without HTML": var b bytes.Buffer; e := json.NewEncoder(&b); e.SetEscapeHTML(false); e.Encode(it); made = b.String()
		case "%q": made = fmt.Sprintf("%q", it)
		case "%+q": made = strconv.QuoteToASCII(it)
		case "%v of bytes": made = fmt.Sprint([]byte(it))
		case "% x": made = fmt.Sprintf("% x", it)
		case "% X": made = fmt.Sprintf("% X", it)
		case "fragment": made = (&url.URL{Host: "x", Fragment: it}).String()
		case "path": made = (&url.URL{Path: "/" + it}).String()
		case "query": made = url.QueryEscape(it)
		case "segment": made = url.PathEscape(it)
		case "user": made = url.UserPassword("a", it).String()
		case "html": made = html.EscapeString(it)
		case "xml": var b bytes.Buffer; xml.EscapeText(&b, []byte(it)); made = b.String()
		}
		os.Stdout.WriteString(made + "\x00")
	}
}
"""
GO_NAMES = ["json", "json without HTML", "%q", "%v of bytes", "% x", "% X", "fragment", "path", "query", "segment", "user", "html"]
HEX_TAGS = "JSON_HEX_TAG | JSON_HEX_AMP | JSON_HEX_APOS | JSON_HEX_QUOT"


def with_go(folder):
    """The encoders of Go, which are built once."""
    with open(f"{folder}/encoders.go", "w") as file:
        file.write(GO)
    subprocess.run(["go", "build", "-o", f"{folder}/encoders", f"{folder}/encoders.go"], check=True, env={**os.environ, "GOFLAGS": "-mod=mod", "GO111MODULE": "off"})
    yield from (Encoder(f"go {name}", [f"{folder}/encoders", name], BYTES if name in ("%v of bytes", "% x", "% X") else TEXT) for name in GO_NAMES)


SQLITE = """import subprocess, sys, os
for it in sys.argv[1:]:
    word = "char(" + ",".join(str(ord(c)) for c in it) + ")"
    made = subprocess.run(["sqlite3", *MODE, ":memory:", f"select quote({word});" if not MODE else f"select {word};"], capture_output=True).stdout
    sys.stdout.buffer.write(made + b"\\0")
"""


def encoders(folder):
    """All encoders whose programs are installed, and after these the names of the programs that are not."""
    every = [
        python("json", "json.dumps(it)"), python("json not in ASCII", "json.dumps(it, ensure_ascii=False)"),
        python("repr", "repr(it)"), python("repr of bytes", "repr(raw)", BYTES),
        python("html", "html.escape(it)"), python("quote", "urllib.parse.quote(it)"), python("quote_plus", "urllib.parse.quote_plus(it)"),
        python("shlex", "shlex.quote(' ' + it)"), python("hex with spaces", "raw.hex(' ')", BYTES), python("hex with colons", "raw.hex(':').upper()", BYTES),
        python("list of bytes", "str(list(raw))", BYTES), python("json in json", "json.dumps(json.dumps(it))"),
        python("all but letters and digits", "re.sub(rb'[^A-Za-z0-9]', lambda m: b'%%%02X' % ord(m[0]), raw)", BYTES),
        python("doubled quotes", "it.replace(chr(39), chr(39) * 2)", BYTES), python("CSV", "chr(34) + it.replace(chr(34), chr(34) * 2) + chr(34)", BYTES),
        python("nginx", "re.sub(rb'[\"\\\\\\0-\\x1f\\x7f-\\xff]', lambda m: b'\\\\x%02X' % ord(m[0]), raw)", BYTES),
        perl("JSON::PP ascii", "JSON::PP->new->allow_nonref->ascii->encode(Encode::decode('UTF-8', $it))", TEXT),
        perl("JSON::PP", "JSON::PP->new->allow_nonref->utf8->encode(Encode::decode('UTF-8', $it))", TEXT),
        php("json", "json_encode($it)"), php("json with tags", f"json_encode($it, {HEX_TAGS})"),
        php("json with tags, not in ASCII", f"json_encode($it, {HEX_TAGS} | JSON_UNESCAPED_UNICODE | JSON_UNESCAPED_SLASHES)"),
        php("json not in ASCII", "json_encode($it, JSON_UNESCAPED_UNICODE)"), php("urlencode", "urlencode($it)", BYTES), php("rawurlencode", "rawurlencode($it)", BYTES),
        php("htmlspecialchars", "htmlspecialchars($it)"), php("escapeshellarg", "escapeshellarg($it)"), php("var_export", "var_export($it, true)", BYTES),
        ruby("json", "JSON.generate(it)"), ruby("json in ASCII", "JSON.generate(it, ascii_only: true)"), ruby("shellescape", "Shellwords.escape(it)"),
        ruby("CGI.escape", "CGI.escape(it)"), ruby("url_encode", "ERB::Util.url_encode(it)"), ruby("CGI.escapeHTML", "CGI.escapeHTML(it)"),
        node("json", "JSON.stringify(it)"), node("encodeURIComponent", "encodeURIComponent(it)"), node("encodeURI", "encodeURI(it)"), node("escape", "escape(it)"),
        node("path", "new URL('http://x/a' + it.replace(/[?#\\t\\r\\n]/g, '') + 'z').pathname"), node("query", "new URL('http://x/?a' + it.replace(/[#\\t\\r\\n]/g, '') + 'z').search"),
        node("fragment", "new URL('http://x/#a' + it.replace(/[\\t\\r\\n]/g, '') + 'z').hash"), node("form", "new URLSearchParams({a: it}).toString()"),
        shell("bash", "%q", 'printf %q "$it"'), shell("bash", "@Q", 'printf %s "${it@Q}"'), shell("bash", "%q in C", 'printf %q "$it"', locale="C"),
        shell("bash", "set -x", '{ set -x; : "$it"; { set +x; } 2>/dev/null; } 2>&1'),
        shell("zsh", "(q)", 'printf %s "${(q)it}"'), shell("zsh", "(qq)", 'printf %s "${(qq)it}"'), shell("zsh", "(qqqq)", 'printf %s "${(qqqq)it}"'), shell("ksh", "%q", 'printf %q "$it"', TEXT),
        Encoder("fish string escape", ["fish", "-c", 'for it in $argv; string escape -- $it | string collect; printf "\\0"; end'], TEXT),
        Encoder("jq @json", ["jq", "-njr", "--args", '$ARGS.positional[] | (@json + "\\u0000")'], TEXT), Encoder("jq @sh", ["jq", "-njr", "--args", '$ARGS.positional[] | (@sh + "\\u0000")'], TEXT),
        Encoder("jq @uri", ["jq", "-njr", "--args", '$ARGS.positional[] | (@uri + "\\u0000")'], TEXT), Encoder("jq @csv", ["jq", "-njr", "--args", '$ARGS.positional[] | ([.] | @csv) + "\\u0000"'], TEXT),
        Encoder("sqlite3 quote", ["python3", "-X", "utf8", "-c", "MODE = []\n" + SQLITE], TEXT), Encoder("sqlite3 csv", ["python3", "-X", "utf8", "-c", "MODE = ['-csv']\n" + SQLITE], TEXT),
    ]  # fmt: skip
    for style in ("shell-escape", "shell-escape-always", "c", "escape"):
        for locale in ("C", "C.UTF-8"):
            code = f'(cd "$FOLDER" && LC_ALL={locale} ls -d --quoting-style={style} -- "$it") || :'
            loop = f'for it in "$@"; do mkdir -p "$FOLDER/$it"; {code}; printf "\\0"; done'
            every.append(Encoder(f"ls {style} in {locale}", ["env", f"FOLDER={folder}/names", "bash", "-c", loop, "bash"], BYTES))
    os.makedirs(f"{folder}/names", exist_ok=True)
    missing = sorted({it.name.split()[0] for it in every if not shutil.which(it.name.split()[0])})
    there = [it for it in every if it.name.split()[0] not in missing]
    if shutil.which("go"):
        there += with_go(folder)
    else:
        missing.append("go")
    return there, missing


# The secrets by which encoders are tried: of letters and marks, with control characters, with characters beyond ASCII, and of any bytes.
LETTERS, MARKS = list("abcXYZ019"), list(string.punctuation + " ")
CONTROLS, OTHERS = [chr(it) for it in range(1, 128)], ["\u00e9", "\u017c", "\u6f22", "\U0001f600", "\u2028", "\u00a0", "\u0085"]
KINDS = {"marks": [LETTERS, MARKS], "controls": [LETTERS, MARKS, CONTROLS], "characters": [LETTERS, MARKS, CONTROLS, OTHERS]}
# What a path, a query or a fragment of a browser, and the name of a file, cannot hold.
LEFT_OUT = {"node path": b"?#\t\r\n", "node query": b"#\t\r\n", "node fragment": b"\t\r\n"}
MARK, BEFORE, AFTER, BETWEEN = b"[-]", b"Kq", b"Wz", b"\n\0==\0\n"
JOINS = b"'\"$\\ ,:-"  # what some write between two bytes


def secrets_of(dice, kind, encoder, count=100):
    """So many secrets of a kind that an encoder takes."""
    left_out = LEFT_OUT.get(encoder.name, b"/" if encoder.name.startswith("ls ") else b"")
    secrets = []
    while len(secrets) < count:
        if kind in KINDS:
            secret = "".join(dice.choice(dice.choice(KINDS[kind])) for _ in range(dice.randint(6, 24))).encode()
        else:
            secret = bytes(dice.choice([dice.randint(1, 255), dice.randint(1, 127), *b"abc'"]) for _ in range(dice.randint(6, 24)))
        secret = secret.translate(None, left_out)
        secrets += [secret] if len(secret) >= 4 else []
    return secrets


def stays(encoder, redacted):
    """Whether a redaction of an encoding leaves more of the secret than what joins its bytes to those before and after it."""
    before, after = BEFORE, AFTER
    if encoder.name in NUMBERS:
        before, after = ((NUMBERS[encoder.name] % it).encode() for it in (BEFORE[-1], AFTER[0]))
    begin, end = redacted.find(before) + len(before), redacted.rfind(after)
    rest = redacted[begin:end].split(MARK)
    return len(rest) < 2 or len(b"".join(rest)) > 6 or b"".join(rest).strip(JOINS) != b""


def leaks_of(program, dice, folder, encoder, kind):
    """The secrets of which an encoder shows more than its redaction may leave, each with its encoding and the redaction; or what went wrong."""
    secrets = secrets_of(dice, kind, encoder)
    ran = subprocess.run([*encoder.words, *(BEFORE + it + AFTER for it in secrets)], capture_output=True)
    made = ran.stdout.split(b"\0")[:-1]
    words = [program, "--forms", "all", "--with", MARK.decode()]
    for number, secret in enumerate(secrets):
        with open(f"{folder}/secret{number}", "wb") as file:
            file.write(secret + b"\n")
        words += ["--whole", f"{folder}/secret{number}"]
    redacted = subprocess.run(words, input=BETWEEN.join(made), capture_output=True)
    parts = redacted.stdout.split(BETWEEN)
    if len(made) != len(secrets) or len(parts) != len(secrets):
        raise ValueError(f"{encoder.name} made {len(made)} of {len(secrets)}, of which acredact wrote {len(parts)}: {(ran.stderr + redacted.stderr)[-300:]}")
    return [it for it in zip(secrets, made, parts) if stays(encoder, it[2])]


def leaks(program, dice, folder):
    """Lines that tell of each encoder how many of its secrets leak, and whether one does for which no reason is known."""
    there, missing = encoders(folder)
    yield f"not installed, so not tried: {', '.join(missing) or 'none'}", False
    for encoder in there:
        for kind in [*KINDS, *(["bytes"] if encoder.takes == BYTES else [])]:
            found = leaks_of(program, dice, folder, encoder, kind)
            reason = next((why for of, kinds, why in KNOWN if re.fullmatch(of, encoder.name) and kind in kinds.split()), None)
            told = f"{encoder.name}, secrets with {kind}: {len(found)} of 100 leak"
            if found and reason:
                yield f"{told}, as is known: {reason}", False
            elif found:
                yield told + "".join(f"\n  {secret} as {made} leaves {part}" for secret, made, part in found[:2]), True

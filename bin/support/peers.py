"""What bin/speeds and bin/compare-bindings measure beside ours: programs over the Rust crate and over Hyperscan as Debian has them, which are written
and built in a temporary folder, and the versions of the tools. `PEER KIND CASE PREFILTER DEPTH TIMES PATTERNS TEXT` prints what
crates/speeds prints; before these the one over the Rust crate takes n or d, its NFA or its DFA."""
from . import write
import collections, glob, os, re, shutil, subprocess, sys

TOOLS = [
    ("GNU grep", "grep", r"GNU grep\) (\S+)"),
    ("ripgrep", "rg", r"ripgrep (\S+)"),
    ("GNU sed", "sed", r"GNU sed\) (\S+)"),
    ("perl", "perl", r"\(v(\S+)\)"),
]
REGISTRY = "/usr/share/cargo/registry"
RUST_MANIFEST = """[package]
name = "peer"
version = "1.0.0"
edition = "2021"
[dependencies]
aho-corasick = "0.7"
[workspace]
"""
RUST_REGISTRY = f"[source.crates-io]\nreplace-with = 'debian'\n[source.debian]\ndirectory = '{REGISTRY}'\n"
RUST_MAIN = r"""use aho_corasick::{AhoCorasickBuilder, MatchKind};
extern "C" {
    fn clock() -> i64;
}
fn seconds() -> f64 {
    unsafe { clock() as f64 / 1e6 }
}
fn main() {
    let words: Vec<String> = std::env::args().skip(1).collect();
    let patterns = std::fs::read(&words[6]).unwrap();
    let patterns: Vec<&[u8]> = patterns.split(|&byte| byte == b'\n').filter(|line| !line.is_empty()).collect();
    let text = std::fs::read(&words[7]).unwrap();
    let begun = seconds();
    let mut builder = AhoCorasickBuilder::new();
    builder.dfa(words[0] == "d").ascii_case_insensitive(words[2] == "1");
    builder.match_kind(if words[1] == "l" { MatchKind::LeftmostLongest } else { MatchKind::LeftmostFirst });
    let searcher = builder.build(&patterns);
    let built = seconds() - begun;
    let (mut least, mut matches, mut sum) = (f64::INFINITY, 0u64, 0u64);
    for _ in 0..words[5].parse().unwrap() {
        (matches, sum) = (0, 0);
        let begun = seconds();
        for m in searcher.find_iter(&text) {
            matches += 1;
            sum = sum.wrapping_mul(31).wrapping_add(m.end() as u64 * 7 + m.start() as u64);
        }
        least = least.min(seconds() - begun);
    }
    println!("{built:.9} {least:.9} {matches} {sum} {}", searcher.heap_bytes());
}
"""
C_MAIN = r"""#include <hs/hs.h>
#include <stdio.h>
#include <stdlib.h>
#include <string.h>
#include <time.h>

static char *read_whole(const char *path, size_t *length) {
    FILE *file = fopen(path, "rb");
    if (!file) exit(2);
    fseek(file, 0, SEEK_END);
    *length = ftell(file);
    rewind(file);
    char *bytes = malloc(*length + 1);
    if (fread(bytes, 1, *length, file) != *length) exit(2);
    return bytes;
}

static double seconds(void) { return (double)clock() / CLOCKS_PER_SEC; }

static int count(unsigned id, unsigned long long from, unsigned long long to, unsigned flags, void *matches) {
    (void)id, (void)from, (void)to, (void)flags;
    ++*(unsigned long long *)matches;
    return 0;
}

int main(int argc, char **words) {
    if (argc != 8) return puts(hs_version()) < 0;
    size_t size, length, lines = 0, used = 0;
    char *patterns = read_whole(words[6], &size), *text = read_whole(words[7], &length);
    const char **starts = malloc((size + 1) * sizeof *starts);
    size_t *lengths = malloc((size + 1) * sizeof *lengths);
    unsigned *flags = malloc((size + 1) * sizeof *flags), *ids = malloc((size + 1) * sizeof *ids);
    for (char *line = patterns, *stop; line < patterns + size; line = stop + 1) {
        stop = memchr(line, '\n', patterns + size - line);
        if (!stop) stop = patterns + size;
        starts[lines] = line;
        lengths[lines] = stop - line;
        ids[lines] = lines;
        flags[lines] = *words[2] == '1' ? HS_FLAG_CASELESS : 0;
        lines += stop > line;
    }
    hs_database_t *database;
    hs_compile_error_t *fault;
    hs_scratch_t *scratch = NULL;
    double begun = seconds(), least = 1e9;
    if (hs_compile_lit_multi(starts, flags, ids, lengths, lines, HS_MODE_BLOCK, NULL, &database, &fault)) return 1;
    double built = seconds() - begun;
    if (hs_alloc_scratch(database, &scratch) || hs_database_size(database, &used)) return 1;
    unsigned long long matches = 0;
    for (int times = atoi(words[5]); times > 0; times--) {
        matches = 0;
        begun = seconds();
        if (hs_scan(database, text, length, 0, scratch, count, &matches)) return 1;
        double took = seconds() - begun;
        if (took < least) least = took;
    }
    return printf("%.9f %.9f %llu 0 %zu\n", built, least, matches, used) < 0;
}
"""


Figures = collections.namedtuple("Figures", "built searched memory")


def measured(start, *asked):
    """The figures of a build and of a search by a call that begins so, in seconds and bytes, and what was seen."""
    words = [*start, *map(str, asked)]
    ran = subprocess.run(words, stdout=subprocess.PIPE, text=True)
    said = ran.stdout.split()
    if ran.returncode or len(said) != 5:
        sys.exit(f"{os.path.basename(sys.argv[0])}: {' '.join(words)} ended with status {ran.returncode}")
    return Figures(float(said[0]), float(said[1]), int(said[4])), (int(said[2]), said[3])


def rust_peer(room):
    """The program over the Rust crate, and what it is."""
    version = glob.glob(f"{REGISTRY}/aho-corasick-0.7.*")[0].rpartition("-")[2]
    folder = os.path.join(room, "rust")
    for name, content in ("Cargo.toml", RUST_MANIFEST), (".cargo/config.toml", RUST_REGISTRY), ("src/main.rs", RUST_MAIN):
        write(os.path.join(folder, name), content)
    words = ["cargo", "build", "--release", "--offline", "--quiet"]
    subprocess.run(words, cwd=folder, check=True, capture_output=True, env={**os.environ, "CARGO_TARGET_DIR": f"{folder}/target"})
    compiler = subprocess.run(["cargo", "--version"], capture_output=True, text=True).stdout.split()[1]
    return f"{folder}/target/release/peer", f"the Rust crate aho-corasick {version} by cargo {compiler}"


def hyperscan_peer(room):
    """The program over Hyperscan, and what it is."""
    source, program = write(os.path.join(room, "peer.c"), C_MAIN), os.path.join(room, "hyperscan")
    subprocess.run(["cc", "-O2", "-o", program, source, "-lhs"], check=True, capture_output=True)
    version = subprocess.run([program], check=True, capture_output=True, text=True).stdout.split()[0]
    return program, f"Hyperscan {version}"


def made(make, room):
    """What `make` made and what it is, or none where it cannot be made here."""
    try:
        return make(room)
    except (OSError, IndexError, subprocess.CalledProcessError):
        return None


def tools():
    """The versions of the tools that are there, by their names."""
    there = [(name, word, known) for name, word, known in TOOLS if shutil.which(word)]
    seen = {name: re.search(known, subprocess.run([word, "--version"], capture_output=True, text=True).stdout) for name, word, known in there}
    return {name: found[1] for name, found in seen.items() if found}

/* Multi-pattern search over bytes. Every function is proved to return what this header says.
 * The library's README.md says what is not proved.
 *
 * Offsets and lengths are in bytes, and offsets start at 0. A range is half-open: it includes
 * `start` and excludes `end`. A pattern's number is its index in the array of patterns, from 0.
 *
 * If a length is 0, the pointer before it may be NULL. No other pointer may be NULL. No function
 * keeps a pointer that it is passed: the patterns may be freed after cs_build.
 *
 * A handle owns one share of a searcher, or it is empty. Initialize every handle with
 * CS_SEARCHER_INIT and release it with cs_free. Never copy a handle with '=', and never write its
 * fields.
 *
 * Only one call at a time may use a handle. For another thread, make a second handle with
 * cs_share. Searches with different handles can run at the same time.
 *
 * A function allocates memory only if its description says so. */
#ifndef CHROMESQUID_H
#define CHROMESQUID_H

#include <stdbool.h>
#include <stddef.h>
#include <stdint.h>

#ifdef __cplusplus
extern "C" {
#endif

/* The version of this header: 10000 * major + 100 * minor + patch. For example, 102 is 0.1.2.
 * cs_version returns the version of the library.
 *
 * Before 1.0, a minor version may change the interface; a patch version does not. The number in
 * libchromesquid.so.0 is raised if programs have to be recompiled. */
#define CS_VERSION 100
#define CS_VERSION_MAJOR (CS_VERSION / 10000)
#define CS_VERSION_MINOR (CS_VERSION / 100 % 100)
#define CS_VERSION_PATCH (CS_VERSION % 100)

/* The layout of cs_options. Layout 4 has room for the options of later versions. */
#define CS_OPTIONS_FORM 4

/* The size of cs_options in bytes. */
#define CS_OPTIONS_SIZE 80

/* Status codes, which the functions return. */
enum {
    CS_DONE = 0,              /* success; a search found nothing */
    CS_FOUND = 1,             /* a search found a match */
    CS_NO_SEARCHER = 2,       /* the handle is empty: it has no searcher, or no stream */
    CS_REFUSED = 3,           /* the searcher was not built for this kind of search */
    CS_NO_SPAN = 4,           /* the range is not within the haystack */
    CS_NO_MEMORY = 5,         /* out of memory */
    CS_NO_OPTION = 6,         /* an option has an invalid value */
    CS_TOO_MANY_STATES = 7,   /* the patterns need more states or transitions than the limit */
    CS_TOO_MANY_PATTERNS = 8, /* there are more patterns than the limit */
    CS_TOO_LONG = 9,          /* a pattern is longer than the limit */
    CS_NOT_ONE_EACH = 10,     /* the number of replacements differs from the number of patterns */
    CS_NO_ROOM = 11,          /* the buffer is too small */
    CS_ENDED = 12,            /* the stream has ended */
    CS_TOO_MANY_BYTES = 13,   /* 2^63 - 1 bytes were pushed */
    CS_EMPTY_PATTERN = 14,    /* a pattern is empty: streams and covers are not supported */
    CS_TOO_SHORT = 15,        /* the secret is shorter than four bytes */
    CS_NO_PATTERN = 16        /* the state does not list that many patterns */
};

/* Match kinds: which of several possible matches is found. */
enum {
    CS_STANDARD = 0,       /* standard: the match that ends first */
    CS_LEFTMOST_FIRST = 1, /* leftmost-first: of those that start first, the first pattern's */
    CS_LEFTMOST_LONGEST = 2 /* leftmost-longest: of those that start first, the longest */
};

/* Start kinds: which searches are supported. */
enum {
    CS_UNANCHORED = 0, /* unanchored searches only: the fastest */
    CS_ANCHORED = 1,   /* anchored searches only */
    CS_BOTH = 2
};

/* The automaton to use. It does not change any result. */
enum {
    CS_BY_RULE = 0,       /* CS_ROWS if all searches are unanchored, else CS_NONCONTIGUOUS */
    CS_NONCONTIGUOUS = 1, /* the fastest to build */
    CS_ROWS = 2           /* the fastest to search. The other one is used for anchored
                           * searches, or if rows do not fit */
};

/* The option that has an invalid value. If several have one, the first of these is reported:
 * CS_SIZE, CS_LATER, then the others in this order. */
enum {
    CS_MATCH_KIND = 1,
    CS_START_KIND = 2,
    CS_AUTOMATON = 3,
    CS_SIZE = 4, /* the options have the layout of another version */
    CS_LATER = 5 /* a reserved field is not 0 */
};

/* Encoded forms in which a secret can appear in a log. Combine several by adding them. */
enum {
    CS_FORM_BASE64 = 1, /* in base64, standard or URL alphabet, at each of the three shifts */
    CS_FORM_HEX = 2,    /* hexadecimal digits, upper or lower case */
    CS_FORM_URL = 4,    /* percent-encoded, with each of the usual sets of unescaped bytes */
    CS_FORM_JSON = 8,   /* in a JSON string */
    CS_FORM_XML = 16,   /* in XML or HTML */
    CS_FORM_SHELL = 32, /* quoted for a shell */
    CS_FORM_LINES = 64, /* each line of at least eight bytes of a secret with several lines */
    CS_FORMS_ALL = 127
};

typedef struct cs_searcher {
    bool full;
    void *at;
} cs_searcher;

#define CS_SEARCHER_INIT { false, NULL }

/* The handle of a stream. The rules for searcher handles apply to it too. Initialize it with
 * CS_STREAM_INIT and release it with cs_stream_free. */
typedef struct cs_stream {
    bool full;
    void *at;
} cs_stream;

#define CS_STREAM_INIT { false, NULL }

typedef struct cs_slice {
    const uint8_t *at;
    size_t len;
} cs_slice;

typedef struct cs_options {
    uint32_t size;       /* CS_OPTIONS_SIZE; any other size is an error */
    uint32_t match_kind; /* CS_STANDARD, ... */
    uint32_t start_kind; /* CS_UNANCHORED, ... */
    bool ignore_case;    /* ignore the case of ASCII letters */
    bool prefilter;      /* allow a prefilter; does not change any result */
    uint32_t automaton;  /* CS_BY_RULE, ... */
    size_t max_index;    /* greatest index of a state, of a transition and of a listed pattern */
    size_t max_pattern;  /* greatest number of a pattern */
    size_t max_len;      /* greatest length of a pattern. Limits above 2^31 - 2 count as that */
    uint64_t later_a;    /* reserved: must be 0, like those below */
    uint64_t later_b;
    uint64_t later_c;
    uint64_t later_d;
} cs_options;

/* Initialize every cs_options with this. The reserved fields must be 0; later versions may give
 * them names. A program compiled with this header requests nothing new from a later library.
 * If a program requests an option that only a later library has, this one returns CS_NO_OPTION. */
#define CS_OPTIONS_INIT { CS_OPTIONS_SIZE, CS_STANDARD, CS_UNANCHORED, false, true, CS_BY_RULE, SIZE_MAX, SIZE_MAX, SIZE_MAX, 0, 0, 0, 0 }

/* Why a build failed. Fields that do not apply to `status` are 0. */
typedef struct cs_error {
    uint32_t status;    /* the status that the build returned */
    uint32_t option;    /* CS_NO_OPTION: CS_MATCH_KIND, ... */
    size_t pattern;     /* CS_TOO_MANY_PATTERNS and CS_TOO_LONG: the pattern's number */
    uint64_t requested; /* CS_NO_OPTION: the invalid value. Otherwise what exceeds the limit:
                         * CS_TOO_MANY_STATES: an index;
                         * CS_TOO_MANY_PATTERNS: the pattern's number;
                         * CS_TOO_LONG: the pattern's length */
    uint64_t max;       /* the limit that was exceeded */
} cs_error;

typedef struct cs_match {
    size_t pattern; /* the pattern's number */
    size_t start;   /* offset of the first byte */
    size_t end;     /* offset after the last byte */
} cs_match;

/* The properties of a state. */
typedef struct cs_state {
    bool is_dead;    /* no match can be found any more; every byte leads to a dead state */
    bool is_match;   /* the state lists a pattern */
    bool is_start;   /* matches that end later start at the current offset or after it */
    bool is_special; /* a search must look at it: true if is_dead or is_match,
                      * may be true if is_start */
    size_t patterns; /* the number of patterns that the state lists */
} cs_state;

typedef struct cs_facts {
    size_t patterns; /* the number of patterns */
    size_t min_len;  /* length of the shortest pattern; SIZE_MAX if there are no patterns */
    size_t max_len;  /* length of the longest pattern; 0 if there are no patterns */
    size_t memory;   /* bytes of memory that the searcher holds */
} cs_facts;

/* Returns the version of the library, encoded as in CS_VERSION. */
uint32_t cs_version(void);

/* Builds a searcher for the patterns and stores it in `out`. The previous content of `out` is
 * released. Allocates the searcher's memory.
 *
 * Returns CS_DONE; or CS_NO_OPTION if an option has an invalid value; otherwise CS_NO_MEMORY,
 * CS_TOO_MANY_STATES, CS_TOO_MANY_PATTERNS or CS_TOO_LONG. On failure, `out` is unchanged. */
uint32_t cs_build(const cs_slice *patterns, size_t patterns_len, const cs_options *options, cs_searcher *out);

/* Like cs_build, and describes a failure: unless it returns CS_DONE, it stores the reason in
 * `error`. If it returns CS_DONE, `error` is unchanged. */
uint32_t cs_try_build(const cs_slice *patterns, size_t patterns_len, const cs_options *options, cs_searcher *out, cs_error *error);

/* Writes the message for an error to `room`, and its length in bytes to `len`. The message ends
 * neither in a newline nor in a NUL byte. If `error` does not describe an error, it is empty.
 *
 * Returns CS_DONE; CS_NO_ROOM if the message is longer than `room_len`; or CS_NO_MEMORY. With
 * CS_NO_ROOM, `len` is the length that is needed. With CS_NO_MEMORY, `len` is unchanged. Unless
 * it returns CS_DONE, `room` is unchanged.
 *
 * Allocates temporary memory for every message except the one for CS_NO_MEMORY. */
uint32_t cs_error_text(const cs_error *error, uint8_t *room, size_t room_len, size_t *len);

/* Releases the content of the handle, which is empty afterwards. The memory of a searcher is freed
 * with its last handle. */
void cs_free(cs_searcher *searcher);

/* Makes `out`, which must be a different handle, share the searcher. The previous content of `out`
 * is released. Allocates 8 bytes.
 *
 * Returns CS_DONE, CS_NO_SEARCHER or CS_NO_MEMORY. On failure, `out` is unchanged. */
uint32_t cs_share(cs_searcher *searcher, cs_searcher *out);

/* Returns CS_FOUND if a pattern occurs in the haystack, and CS_DONE if not.
 *
 * Errors: CS_NO_SEARCHER; CS_REFUSED if the searcher was built for anchored searches only. */
uint32_t cs_is_match(cs_searcher *searcher, const uint8_t *haystack, size_t haystack_len);

/* Finds the first match. Returns CS_FOUND and stores the match in `found`, or returns CS_DONE if
 * there is no match.
 *
 * Errors: the same as cs_is_match. Unless it returns CS_FOUND, `found` is unchanged. */
uint32_t cs_find(cs_searcher *searcher, const uint8_t *haystack, size_t haystack_len, cs_match *found);

/* Like cs_find, within the half-open range from `start` to `end`. If `anchored` is true, a match
 * must start at `start`. If `earliest` is true, the match is the one that ends first.
 *
 * Errors: CS_NO_SEARCHER; CS_NO_SPAN unless start <= end <= haystack_len; CS_REFUSED if the
 * searcher was not built for this kind of search. Unless it returns CS_FOUND, `found` is
 * unchanged. */
uint32_t cs_search(cs_searcher *searcher, const uint8_t *haystack, size_t haystack_len, size_t start, size_t end, bool anchored,
                   bool earliest, cs_match *found);

/* Finds all matches that do not overlap: each search starts at the end of the previous match.
 * Returns CS_DONE and stores the number of matches in `count`. The first `room_len` of them, or
 * all if there are fewer, are stored in `room`.
 *
 * Errors: the same as cs_is_match. On failure, `room` and `count` are unchanged. */
uint32_t cs_find_all(cs_searcher *searcher, const uint8_t *haystack, size_t haystack_len, cs_match *room, size_t room_len,
                     size_t *count);

/* Like cs_find_all, for all matches, including overlapping ones. They are sorted by end, then by
 * start, then by pattern number.
 *
 * Errors: the same as cs_find_all, and CS_REFUSED if the match kind is not CS_STANDARD. */
uint32_t cs_overlapping(cs_searcher *searcher, const uint8_t *haystack, size_t haystack_len, cs_match *room, size_t room_len,
                        size_t *count);

/* Replaces each match with the replacement for its pattern. Returns CS_DONE, and stores the result
 * in `room` and its length in bytes in `len`. Allocates temporary memory for the result.
 *
 * Errors: CS_NO_SEARCHER; CS_NOT_ONE_EACH; CS_REFUSED as for cs_is_match; CS_NO_MEMORY;
 * CS_NO_ROOM if the result is longer than `room_len`. With CS_NO_ROOM, `len` is the length that
 * is needed. With any other error, `len` is unchanged. Unless it returns CS_DONE, `room` is
 * unchanged. */
uint32_t cs_replace_all(cs_searcher *searcher, const uint8_t *haystack, size_t haystack_len, const cs_slice *replace_with,
                        size_t replace_with_len, uint8_t *room, size_t room_len, size_t *len);

/* Replaces each run of bytes that lie in matches, so that no byte of a match remains, even if
 * matches overlap or touch. The longest pattern that matches at the start of the run
 * determines the replacement. If several patterns are that long, the first one wins.
 *
 * Returns CS_DONE or CS_NO_ROOM, and allocates, like cs_replace_all.
 *
 * Errors: CS_NO_SEARCHER; CS_NOT_ONE_EACH; CS_REFUSED if the match kind is not CS_STANDARD;
 * CS_EMPTY_PATTERN; CS_REFUSED as for cs_is_match; CS_NO_MEMORY. With these, `len` is unchanged.
 * Unless it returns CS_DONE, `room` is unchanged. */
uint32_t cs_cover_all(cs_searcher *searcher, const uint8_t *haystack, size_t haystack_len, const cs_slice *replace_with,
                      size_t replace_with_len, uint8_t *room, size_t room_len, size_t *len);

/* Makes patterns that find a secret in the given encoded forms (CS_FORM_BASE64, ...), without
 * duplicates. The secret may be encoded alone or together with other bytes. Every character that
 * holds a bit of the secret lies in an occurrence of a pattern. Build a searcher for the patterns
 * and the secret itself, and use it with cs_cover_all.
 *
 * Returns CS_DONE and stores the concatenated patterns in `room`, and the offset after each of
 * them in `ends`. Stores their total length in bytes in `len`, and their number in `count`.
 * Allocates temporary memory for the patterns.
 *
 * Errors: CS_NO_OPTION if `forms` has a bit that belongs to no form; CS_TOO_SHORT; CS_NO_MEMORY;
 * CS_NO_ROOM if `room` or `ends` is too small. With CS_NO_ROOM, `len` and `count` are the sizes
 * that are needed. With any other error, `len` and `count` are unchanged. Unless it returns
 * CS_DONE, `room` and `ends` are unchanged. */
uint32_t cs_forms(const uint8_t *secret, size_t secret_len, uint32_t forms, uint8_t *room, size_t room_len, size_t *ends,
                  size_t ends_len, size_t *len, size_t *count);

/* Stores facts about the searcher in `out`. Returns CS_DONE, or CS_NO_SEARCHER; then `out` is
 * unchanged. */
uint32_t cs_info(cs_searcher *searcher, cs_facts *out);

/* Stores the number of the state in which a search starts in `state`, and returns CS_DONE. Use it
 * to read bytes one at a time.
 *
 * A state number is valid for all handles that share the searcher, and for no other. Pass to
 * cs_next_state, cs_state_is and cs_match_pattern only numbers that this function or cs_next_state
 * stored.
 *
 * Errors: CS_NO_SEARCHER; CS_REFUSED if the searcher was not built for searches with this
 * anchoring. On failure, `state` is unchanged. */
uint32_t cs_start_state(cs_searcher *searcher, bool anchored, uint32_t *state);

/* Stores the number of the state after one more byte in `next`, and returns CS_DONE. Pass the same
 * `anchored` for every byte as for the start state.
 *
 * Error: CS_NO_SEARCHER; then `next` is unchanged. */
uint32_t cs_next_state(cs_searcher *searcher, bool anchored, uint32_t state, uint8_t byte, uint32_t *next);

/* Stores the properties of a state in `out`. Returns CS_DONE, or CS_NO_SEARCHER; then `out` is
 * unchanged. */
uint32_t cs_state_is(cs_searcher *searcher, uint32_t state, cs_state *out);

/* Stores in `pattern` the number of the pattern at `index` in the list of a state, and returns
 * CS_DONE. The first one is the best of those that end at the current offset.
 *
 * With CS_STANDARD, a state that is not dead lists all patterns that end there: the longest first,
 * then by number. With the leftmost kinds, take the last state that lists patterns before a dead
 * state or the end: the match of the search is the first pattern in its list. In an anchored
 * search, a list counts only if its first pattern is as long as the bytes read so far.
 *
 * Errors: CS_NO_SEARCHER; CS_NO_PATTERN if the state does not list that many patterns. On failure,
 * `pattern` is unchanged. */
uint32_t cs_match_pattern(cs_searcher *searcher, uint32_t state, size_t index, size_t *pattern);

/* Starts a stream, into which bytes are pushed. The stream owns a share of the searcher. The
 * previous content of `out` is released. Allocates 8 times the length of the longest pattern, but
 * at least 65536 bytes.
 *
 * Returns CS_DONE; CS_NO_SEARCHER; CS_EMPTY_PATTERN; CS_REFUSED as for cs_is_match; or
 * CS_NO_MEMORY. On failure, `out` is unchanged. */
uint32_t cs_stream_new(cs_searcher *searcher, cs_stream *out);

/* Appends bytes to the stream: as many of the first ones as there is room for. Returns CS_DONE and
 * stores their number in `taken`.
 *
 * There is room for at least one byte after cs_stream_next or cs_stream_replace returned CS_DONE.
 * Otherwise `taken` may be 0. Push the rest after that function returns CS_DONE again.
 *
 * Errors: CS_NO_SEARCHER, CS_ENDED, CS_TOO_MANY_BYTES. On failure, `taken` is unchanged. */
uint32_t cs_stream_push(cs_stream *stream, const uint8_t *bytes, size_t bytes_len, size_t *taken);

/* Finds the next match in all bytes pushed so far, from the end of the previous match. Returns
 * CS_FOUND and stores the match, with its offsets in the stream, in `found`: later bytes cannot
 * change it. Returns CS_DONE if no match is certain yet or, after cs_stream_end, if none is left.
 *
 * With CS_STANDARD, a match is certain as soon as its last byte is pushed. With the leftmost kinds,
 * a match is certain at the first later byte that continues no match that could take its place,
 * or at the end. It waits for one more byte even if no match could take its place.
 *
 * Error: CS_NO_SEARCHER. Unless it returns CS_FOUND, `found` is unchanged. */
uint32_t cs_stream_next(cs_stream *stream, cs_match *found);

/* Writes the next part of the stream, with each match replaced with the replacement for its
 * pattern. Returns CS_FOUND and stores the part in `room`, and its length in bytes, which may be
 * 0, in `len`. Returns CS_DONE if no more is certain yet, or everything was written. The result
 * is the concatenation of all parts. Use it instead of cs_stream_next, for a whole stream.
 *
 * Errors: CS_NO_SEARCHER; CS_NOT_ONE_EACH; CS_NO_ROOM if `room_len` is too small. `room` must
 * be at least as long as the bytes pushed and not yet written, and as the longest replacement.
 * With CS_NO_ROOM, `len` is the size that is needed, and no part is consumed. The size needed is
 * at most the greatest of three: 8 times the longest pattern, 65536 bytes, and the longest
 * replacement.
 *
 * Unless it returns CS_FOUND, `room` is unchanged. Unless it returns CS_FOUND or CS_NO_ROOM, `len`
 * is unchanged. */
uint32_t cs_stream_replace(cs_stream *stream, const cs_slice *replace_with, size_t replace_with_len, uint8_t *room, size_t room_len,
                           size_t *len);

/* Ends the input of the stream, so that every remaining match is certain. Returns CS_DONE or
 * CS_NO_SEARCHER. */
uint32_t cs_stream_end(cs_stream *stream);

/* Releases the content of the handle, which is empty afterwards. */
void cs_stream_free(cs_stream *stream);

#ifdef __cplusplus
}
#endif
#endif

/* Rows of the C library. It tells the first that fails, with its line, and its status is then 1. */
#include "chromesquid.h"
#include <pthread.h>
#include <stdio.h>
#include <stdlib.h>
#include <string.h>

#define HAS(truth) \
    do { \
        if (!(truth)) { \
            fprintf(stderr, "clib.c:%d: %s\n", __LINE__, #truth); \
            exit(1); \
        } \
    } while (0)
#define SLICE(text) { (const uint8_t *)(text), sizeof(text) - 1 }
#define BYTES(text) (const uint8_t *)(text), sizeof(text) - 1
#define ROOM 16

static const cs_slice names[] = { SLICE("samwise"), SLICE("sam"), SLICE("frodo"), SLICE("s") };
static const cs_slice others[] = { SLICE("SW"), SLICE("SAM"), SLICE("FRODO"), SLICE("") };

#define PATTERNS (sizeof names / sizeof *names)

static bool is(cs_match m, size_t pattern, size_t start, size_t end) {
    return m.pattern == pattern && m.start == start && m.end == end;
}

static cs_searcher built(uint32_t match_kind, uint32_t start_kind) {
    cs_searcher it = CS_SEARCHER_INIT;
    cs_options options = CS_OPTIONS_INIT;
    options.match_kind = match_kind;
    options.start_kind = start_kind;
    HAS(cs_build(names, 4, &options, &it) == CS_DONE);
    return it;
}

static void rebuild(cs_searcher *it, uint32_t match_kind, uint32_t start_kind) {
    cs_free(it);
    *it = built(match_kind, start_kind);
}

/* What a handle without a searcher answers, and that it writes nothing. */
static void none(void) {
    cs_searcher it = CS_SEARCHER_INIT, other = CS_SEARCHER_INIT;
    cs_match m = { 7, 8, 9 };
    cs_facts facts = { 1, 2, 3, 4 };
    size_t count = 5;
    uint8_t byte = 6;
    HAS(cs_is_match(&it, BYTES("sam")) == CS_NO_SEARCHER);
    HAS(cs_find(&it, BYTES("sam"), &m) == CS_NO_SEARCHER);
    HAS(cs_search(&it, BYTES("sam"), 0, 9, false, false, &m) == CS_NO_SEARCHER);
    HAS(cs_find_all(&it, BYTES("sam"), &m, 1, &count) == CS_NO_SEARCHER);
    HAS(cs_overlapping(&it, BYTES("sam"), &m, 1, &count) == CS_NO_SEARCHER);
    HAS(cs_replace_all(&it, BYTES("sam"), others, 4, &byte, 1, &count) == CS_NO_SEARCHER);
    HAS(cs_cover_all(&it, BYTES("sam"), others, 4, &byte, 1, &count) == CS_NO_SEARCHER);
    HAS(cs_info(&it, &facts) == CS_NO_SEARCHER);
    HAS(cs_share(&it, &other) == CS_NO_SEARCHER);
    cs_state told = { false, false, false, false, 9 };
    uint32_t state = 8;
    HAS(cs_start_state(&it, false, &state) == CS_NO_SEARCHER && cs_next_state(&it, false, 0, 0, &state) == CS_NO_SEARCHER);
    HAS(cs_state_is(&it, 0, &told) == CS_NO_SEARCHER && cs_match_pattern(&it, 0, 0, &count) == CS_NO_SEARCHER);
    HAS(state == 8 && told.patterns == 9 && !told.is_dead);
    HAS(is(m, 7, 8, 9) && facts.patterns == 1 && facts.memory == 4 && count == 5 && byte == 6);
    cs_free(&it);
    cs_free(&it);
    HAS(!it.full && !it.at);
}

/* The options' numbers, and a build in the place of another. */
static void builds(void) {
    cs_searcher it = CS_SEARCHER_INIT;
    cs_options options = CS_OPTIONS_INIT;
    options.match_kind = 3;
    HAS(cs_build(names, 4, &options, &it) == CS_NO_OPTION && !it.full);
    options.match_kind = CS_STANDARD;
    options.start_kind = 3;
    HAS(cs_build(names, 4, &options, &it) == CS_NO_OPTION && !it.full);
    options.start_kind = CS_UNANCHORED;
    HAS(cs_build(names, 4, &options, &it) == CS_DONE && it.full);
    HAS(cs_build(NULL, 0, &options, &it) == CS_DONE);
    HAS(cs_is_match(&it, BYTES("sam")) == CS_DONE);
    options.match_kind = 9;
    HAS(cs_build(names, 4, &options, &it) == CS_NO_OPTION && it.full);
    options = (cs_options)CS_OPTIONS_INIT;
    options.ignore_case = true;
    HAS(cs_build(names, 4, &options, &it) == CS_DONE);
    HAS(cs_is_match(&it, BYTES("SAM")) == CS_FOUND);
    cs_slice empty = { NULL, 0 };
    HAS(cs_build(&empty, 1, &options, &it) == CS_DONE);
    cs_match m, all[3];
    size_t count;
    HAS(cs_find(&it, NULL, 0, &m) == CS_FOUND && is(m, 0, 0, 0));
    HAS(cs_find_all(&it, BYTES("ab"), all, 3, &count) == CS_DONE && count == 3);
    HAS(is(all[0], 0, 0, 0) && is(all[1], 0, 1, 1) && is(all[2], 0, 2, 2));
    cs_free(&it);
}

/* What a build's error tells. */
static bool tells_error(cs_error error, const char *text) {
    char room[200];
    size_t len = 0, other = 0;
    HAS(cs_error_text(&error, (uint8_t *)room, sizeof room, &len) == CS_DONE && len == strlen(text));
    HAS(len == 0 || (cs_error_text(&error, NULL, 0, &other) == CS_NO_ROOM && other == len));
    return !memcmp(room, text, len);
}

static bool is_error(cs_error it, uint32_t status, uint32_t option, size_t pattern, uint64_t requested, uint64_t max) {
    return it.status == status && it.option == option && it.pattern == pattern && it.requested == requested && it.max == max;
}

/* Whether both builds are refused so, the searcher that was there stays, and the error has this text, if one is asked for. */
static bool refuses(const cs_options *options, uint32_t status, uint32_t option, size_t pattern, uint64_t requested, uint64_t max, const char *text) {
    cs_searcher it = built(CS_STANDARD, CS_UNANCHORED);
    cs_error error = { 1, 2, 3, 4, 5 };
    bool is_so = cs_try_build(names, 4, options, &it, &error) == status && is_error(error, status, option, pattern, requested, max) && it.full
        && cs_build(names, 4, options, &it) == status && it.full && cs_is_match(&it, BYTES("sam")) == CS_FOUND;
    cs_free(&it);
    return is_so && (!text || tells_error(error, text));
}

static void errors(void) {
    cs_searcher it = CS_SEARCHER_INIT;
    cs_options options = CS_OPTIONS_INIT;
    cs_error error = { 1, 2, 3, 4, 5 };
    HAS(CS_OPTIONS_FORM == 4 && sizeof options == CS_OPTIONS_SIZE && options.size == CS_OPTIONS_SIZE);
    HAS(cs_try_build(names, 4, &options, &it, &error) == CS_DONE && is_error(error, 1, 2, 3, 4, 5));
    HAS(cs_is_match(&it, BYTES("sam")) == CS_FOUND && tells_error(error, ""));
    options.match_kind = 3, options.start_kind = 4, options.automaton = 5;
    HAS(refuses(&options, CS_NO_OPTION, CS_MATCH_KIND, 0, 3, 0, "match kind 3 means nothing"));
    options.match_kind = CS_STANDARD;
    HAS(refuses(&options, CS_NO_OPTION, CS_START_KIND, 0, 4, 0, "start kind 4 means nothing"));
    options.start_kind = CS_UNANCHORED;
    HAS(refuses(&options, CS_NO_OPTION, CS_AUTOMATON, 0, 5, 0, "automaton 5 means nothing"));
    for (options.size = 0; options.size < 100; options.size++) /* it is told before the others */
        HAS(options.size == CS_OPTIONS_SIZE || refuses(&options, CS_NO_OPTION, CS_SIZE, 0, options.size, 0, NULL));
    options.automaton = CS_BY_RULE, options.size = 99;
    HAS(refuses(&options, CS_NO_OPTION, CS_SIZE, 0, 99, 0, "size 99 means nothing"));
    options.size = CS_OPTIONS_SIZE;
    uint64_t *places[] = { &options.later_a, &options.later_b, &options.later_c, &options.later_d };
    for (int at = 0; at < 4; at++) {
        *places[at] = UINT64_MAX - 6; /* it is told before the others but the size */
        for (options.match_kind = CS_STANDARD; options.match_kind < 4; options.match_kind += 3)
            HAS(refuses(&options, CS_NO_OPTION, CS_LATER, 0, *places[at], 0, "later option 18446744073709551609 means nothing"));
        *places[at] = 0;
    }
    options.match_kind = CS_STANDARD;
    HAS(cs_build(names, 4, &options, &it) == CS_DONE && it.full);
    options.max_len = 6;
    HAS(refuses(&options, CS_TOO_LONG, 0, 0, 7, 6, "pattern 0 with length 7 exceeds the maximum pattern length of 6"));
    options.max_len = 7;
    options.max_pattern = 2;
    const char *many = "pattern identifier overflow: failed to create pattern ID from 3, which exceeds the max of 2";
    HAS(cs_build(names, 3, &options, &it) == CS_DONE && refuses(&options, CS_TOO_MANY_PATTERNS, 0, 3, 3, 2, many));
    options.max_pattern = SIZE_MAX;
    options.max_index = 700;
    const char *long_states = "state identifier overflow: failed to create state ID from 701, which exceeds the max of 700";
    HAS(refuses(&options, CS_TOO_MANY_STATES, 0, 0, 701, 700, long_states));
    HAS(tells_error((cs_error){ CS_NO_MEMORY, 0, 0, 0, 0 }, "out of memory"));
    cs_free(&it);
}

/* One match, by each match kind. */
static void finds(void) {
    cs_match m;
    cs_searcher it = built(CS_STANDARD, CS_UNANCHORED);
    HAS(cs_find(&it, BYTES("frodo and samwise"), &m) == CS_FOUND && is(m, 2, 0, 5));
    HAS(cs_find(&it, BYTES("a samwise"), &m) == CS_FOUND && is(m, 3, 2, 3));
    m = (cs_match){ 7, 8, 9 };
    HAS(cs_find(&it, BYTES("x"), &m) == CS_DONE && is(m, 7, 8, 9));
    HAS(cs_find(&it, NULL, 0, &m) == CS_DONE && is(m, 7, 8, 9));
    HAS(cs_is_match(&it, BYTES("xsx")) == CS_FOUND && cs_is_match(&it, BYTES("x")) == CS_DONE);
    rebuild(&it, CS_LEFTMOST_FIRST, CS_UNANCHORED);
    HAS(cs_find(&it, BYTES("a samwise"), &m) == CS_FOUND && is(m, 0, 2, 9));
    HAS(cs_find(&it, BYTES("a samw"), &m) == CS_FOUND && is(m, 1, 2, 5));
    rebuild(&it, CS_LEFTMOST_LONGEST, CS_UNANCHORED);
    HAS(cs_find(&it, BYTES("a samwise"), &m) == CS_FOUND && is(m, 0, 2, 9));
    cs_free(&it);
}

/* Spans, anchored searches and earliest ones. */
static void searches(void) {
    cs_match m = { 7, 8, 9 };
    cs_searcher it = built(CS_LEFTMOST_FIRST, CS_BOTH);
    HAS(cs_search(&it, BYTES("a samwise"), 0, 9, false, false, &m) == CS_FOUND && is(m, 0, 2, 9));
    HAS(cs_search(&it, BYTES("a samwise"), 0, 9, false, true, &m) == CS_FOUND && is(m, 3, 2, 3));
    HAS(cs_search(&it, BYTES("a samwise"), 0, 8, false, false, &m) == CS_FOUND && is(m, 1, 2, 5));
    HAS(cs_search(&it, BYTES("a samwise"), 3, 9, false, false, &m) == CS_FOUND && is(m, 3, 7, 8));
    HAS(cs_search(&it, BYTES("a samwise"), 2, 9, true, false, &m) == CS_FOUND && is(m, 0, 2, 9));
    m = (cs_match){ 7, 8, 9 };
    HAS(cs_search(&it, BYTES("a samwise"), 0, 9, true, false, &m) == CS_DONE);
    HAS(cs_search(&it, BYTES("a samwise"), 9, 9, false, false, &m) == CS_DONE);
    HAS(cs_search(&it, NULL, 0, 0, 0, false, false, &m) == CS_DONE);
    HAS(cs_search(&it, BYTES("a samwise"), 3, 2, false, false, &m) == CS_NO_SPAN);
    HAS(cs_search(&it, BYTES("a samwise"), 0, 10, false, false, &m) == CS_NO_SPAN);
    HAS(cs_search(&it, BYTES("a samwise"), SIZE_MAX, SIZE_MAX, false, false, &m) == CS_NO_SPAN);
    rebuild(&it, CS_STANDARD, CS_UNANCHORED);
    HAS(cs_search(&it, BYTES("sam"), 0, 3, true, false, &m) == CS_REFUSED);
    cs_free(&it);
    HAS(is(m, 7, 8, 9));
    it = built(CS_STANDARD, CS_ANCHORED);
    HAS(cs_search(&it, BYTES("sam"), 0, 3, true, false, &m) == CS_FOUND && is(m, 3, 0, 1));
    m = (cs_match){ 7, 8, 9 };
    size_t count = 5;
    uint8_t byte = 6;
    HAS(cs_search(&it, BYTES("sam"), 0, 3, false, false, &m) == CS_REFUSED);
    HAS(cs_is_match(&it, BYTES("sam")) == CS_REFUSED && cs_find(&it, BYTES("sam"), &m) == CS_REFUSED);
    HAS(cs_find_all(&it, BYTES("sam"), &m, 1, &count) == CS_REFUSED);
    HAS(cs_overlapping(&it, BYTES("sam"), &m, 1, &count) == CS_REFUSED);
    HAS(cs_replace_all(&it, BYTES("sam"), others, 4, &byte, 1, &count) == CS_REFUSED);
    HAS(cs_cover_all(&it, BYTES("sam"), others, 4, &byte, 1, &count) == CS_REFUSED);
    HAS(cs_cover_all(&it, BYTES("sam"), others, 3, &byte, 1, &count) == CS_NOT_ONE_EACH);
    HAS(is(m, 7, 8, 9) && count == 5 && byte == 6);
    cs_free(&it);
}

/* All matches: what the room holds, and the count of all. */
static void lists(void) {
    cs_match room[ROOM];
    size_t count;
    cs_searcher it = built(CS_STANDARD, CS_UNANCHORED);
    HAS(cs_find_all(&it, BYTES("frodo sam"), room, ROOM, &count) == CS_DONE && count == 2);
    HAS(is(room[0], 2, 0, 5) && is(room[1], 3, 6, 7));
    HAS(cs_overlapping(&it, BYTES("frodo samwise"), room, ROOM, &count) == CS_DONE && count == 5);
    HAS(is(room[0], 2, 0, 5) && is(room[1], 3, 6, 7) && is(room[2], 1, 6, 9));
    HAS(is(room[3], 3, 11, 12) && is(room[4], 0, 6, 13));
    memset(room, 0, sizeof room);
    HAS(cs_overlapping(&it, BYTES("frodo samwise"), room, 2, &count) == CS_DONE && count == 5);
    HAS(is(room[1], 3, 6, 7) && is(room[2], 0, 0, 0));
    HAS(cs_find_all(&it, BYTES("ssssss"), NULL, 0, &count) == CS_DONE && count == 6);
    HAS(cs_find_all(&it, BYTES("ssssss"), room, 3, &count) == CS_DONE && count == 6);
    HAS(is(room[2], 3, 2, 3) && is(room[3], 0, 0, 0));
    HAS(cs_find_all(&it, NULL, 0, room, ROOM, &count) == CS_DONE && count == 0);
    rebuild(&it, CS_LEFTMOST_FIRST, CS_UNANCHORED);
    HAS(cs_find_all(&it, BYTES("samwise sam"), room, ROOM, &count) == CS_DONE && count == 2);
    HAS(is(room[0], 0, 0, 7) && is(room[1], 1, 8, 11));
    count = 5;
    HAS(cs_overlapping(&it, BYTES("sam"), room, ROOM, &count) == CS_REFUSED && count == 5);
    cs_free(&it);
}

/* Puts what the states tell of a text, byte by byte: each pattern that each of them lists, up to a dead one. */
static size_t walked(cs_searcher *it, bool anchored, const uint8_t *haystack, size_t len, cs_match *room) {
    uint32_t state = 0;
    size_t found = 0, pattern = 7;
    HAS(cs_start_state(it, anchored, &state) == CS_DONE);
    for (size_t at = 0;; at++) {
        cs_state told;
        HAS(cs_state_is(it, state, &told) == CS_DONE && told.is_match == (told.patterns > 0));
        HAS(told.is_special || !(told.is_dead || told.is_match));
        HAS(at > 0 || (told.is_start && !told.is_dead));
        HAS(cs_match_pattern(it, state, told.patterns, &pattern) == CS_NO_PATTERN && pattern == 7);
        HAS(cs_match_pattern(it, state, SIZE_MAX, &pattern) == CS_NO_PATTERN && pattern == 7);
        for (size_t index = 0; index < told.patterns; index++, pattern = 7) {
            HAS(cs_match_pattern(it, state, index, &pattern) == CS_DONE && pattern < PATTERNS);
            room[found++] = (cs_match){ pattern, at - names[pattern].len, at };
        }
        if (told.is_dead) {
            HAS(cs_next_state(it, anchored, state, 's', &state) == CS_DONE && cs_state_is(it, state, &told) == CS_DONE && told.is_dead);
            return found;
        }
        if (at == len) return found;
        HAS(cs_next_state(it, anchored, state, haystack[at], &state) == CS_DONE);
    }
}

/* Each kind of automaton answers the same, and its states tell what searches find. */
static void states(void) {
    cs_match told[ROOM], room[ROOM];
    size_t count = 0, found = 0;
    uint32_t state = 8;
    for (uint32_t automaton = CS_BY_RULE; automaton <= CS_ROWS; automaton++)
        for (uint32_t start_kind = CS_UNANCHORED; start_kind <= CS_BOTH; start_kind += 2) {
            cs_searcher it = CS_SEARCHER_INIT;
            cs_options options = CS_OPTIONS_INIT;
            options.automaton = automaton;
            options.start_kind = start_kind;
            HAS(cs_build(names, 4, &options, &it) == CS_DONE);
            HAS(cs_overlapping(&it, BYTES("frodo samwise"), room, ROOM, &count) == CS_DONE && count == 5 && is(room[4], 0, 6, 13));
            HAS(walked(&it, false, BYTES("frodo samwise"), told) == 5 && !memcmp(told, room, 5 * sizeof *room));
            HAS(walked(&it, false, NULL, 0, told) == 0);
            for (uint32_t kind = CS_LEFTMOST_FIRST; kind <= CS_LEFTMOST_LONGEST; kind++) {
                options.match_kind = kind;
                HAS(cs_build(names, 4, &options, &it) == CS_DONE);
                found = walked(&it, false, BYTES("a samwise sam"), told);
                HAS(cs_find(&it, BYTES("a samwise sam"), room) == CS_FOUND && found > 0 && !memcmp(&told[found - 1], room, sizeof *room));
            }
            cs_free(&it);
        }
    cs_searcher it = built(CS_STANDARD, CS_BOTH);
    found = walked(&it, true, BYTES("samwisesam"), told);
    for (size_t at = count = 0; at < found; at++)
        if (told[at].start == 0) room[count++] = told[at];
    HAS(count == 3 && is(room[0], 3, 0, 1) && is(room[1], 1, 0, 3) && is(room[2], 0, 0, 7));
    HAS(walked(&it, true, BYTES("xsam"), told) == 0);
    rebuild(&it, CS_STANDARD, CS_UNANCHORED);
    HAS(cs_start_state(&it, true, &state) == CS_REFUSED && state == 8);
    rebuild(&it, CS_STANDARD, CS_ANCHORED);
    HAS(cs_start_state(&it, false, &state) == CS_REFUSED && state == 8);
    HAS(cs_start_state(&it, true, &state) == CS_DONE);
    cs_free(&it);
}

static void replaces(void) {
    uint8_t room[64];
    size_t len = 0;
    cs_searcher it = built(CS_LEFTMOST_FIRST, CS_UNANCHORED);
    memset(room, '-', sizeof room);
    HAS(cs_replace_all(&it, BYTES("frodo, samwise"), others, 4, room, 8, &len) == CS_NO_ROOM && len == 9 && room[0] == '-');
    HAS(cs_replace_all(&it, BYTES("frodo, samwise"), others, 4, room, 9, &len) == CS_DONE && len == 9);
    HAS(!memcmp(room, "FRODO, SW--", 11));
    HAS(cs_replace_all(&it, BYTES("sss"), others, 4, NULL, 0, &len) == CS_DONE && len == 0);
    HAS(cs_replace_all(&it, NULL, 0, others, 4, room, 64, &len) == CS_DONE && len == 0);
    len = 5;
    HAS(cs_replace_all(&it, BYTES("sam"), others, 3, room, 64, &len) == CS_NOT_ONE_EACH && len == 5);
    HAS(cs_replace_all(&it, BYTES("sam"), NULL, 0, room, 64, &len) == CS_NOT_ONE_EACH && len == 5);
    cs_free(&it);
}

/* Runs of bytes that matches hold: overlapping and touching ones, and each refusal. */
static void covers(void) {
    uint8_t room[64];
    size_t len = 0;
    const cs_slice words[] = { SLICE("amwi"), SLICE("sam"), SLICE("frodo"), SLICE("samw"), SLICE("do") };
    const cs_slice marks[] = { SLICE("[a]"), SLICE("[s]"), SLICE("[f]"), SLICE("[w]"), SLICE("") };
    cs_searcher it = CS_SEARCHER_INIT;
    cs_options options = CS_OPTIONS_INIT;
    HAS(cs_build(words, 5, &options, &it) == CS_DONE);
    memset(room, '-', sizeof room);
    HAS(cs_cover_all(&it, BYTES("frodosamwise, sam, do"), marks, 5, room, 11, &len) == CS_NO_ROOM && len == 12 && room[0] == '-');
    HAS(cs_cover_all(&it, BYTES("frodosamwise, sam, do"), marks, 5, room, 12, &len) == CS_DONE && len == 12);
    HAS(!memcmp(room, "[f]se, [s], --", 14));
    HAS(cs_cover_all(&it, BYTES("a samwise"), marks, 5, room, 64, &len) == CS_DONE && len == 7 && !memcmp(room, "a [w]se", 7));
    HAS(cs_cover_all(&it, BYTES("dodo"), marks, 5, NULL, 0, &len) == CS_DONE && len == 0);
    HAS(cs_cover_all(&it, NULL, 0, marks, 5, room, 64, &len) == CS_DONE && len == 0);
    len = 5;
    HAS(cs_cover_all(&it, BYTES("sam"), marks, 4, room, 64, &len) == CS_NOT_ONE_EACH && len == 5);
    rebuild(&it, CS_LEFTMOST_LONGEST, CS_UNANCHORED);
    HAS(cs_cover_all(&it, BYTES("sam"), others, 4, room, 64, &len) == CS_REFUSED && len == 5);
    const cs_slice empty[] = { SLICE("sam"), { NULL, 0 } };
    options.start_kind = CS_ANCHORED;
    HAS(cs_build(empty, 2, &options, &it) == CS_DONE);
    HAS(cs_cover_all(&it, BYTES("sam"), marks, 2, room, 64, &len) == CS_EMPTY_PATTERN && len == 5);
    options.match_kind = CS_LEFTMOST_FIRST;
    HAS(cs_build(empty, 2, &options, &it) == CS_DONE);
    HAS(cs_cover_all(&it, BYTES("sam"), marks, 2, room, 64, &len) == CS_REFUSED && len == 5);
    HAS(cs_build(NULL, 0, &(cs_options)CS_OPTIONS_INIT, &it) == CS_DONE);
    HAS(cs_cover_all(&it, BYTES("sam"), NULL, 0, room, 64, &len) == CS_DONE && len == 3 && !memcmp(room, "sam", 3));
    cs_free(&it);
}

/* The patterns of a secret: each in its place, where there is no room, and each refusal. */
static void forms(void) {
    const char *hex = "6b65792f2b6B65792F2B";
    uint8_t room[8000];
    size_t ends[400], len = 0, count = 0;
    memset(room, '-', sizeof room);
    memset(ends, 0, sizeof ends);
    HAS(cs_forms(BYTES("key/+"), CS_FORM_HEX, room, 19, ends, 2, &len, &count) == CS_NO_ROOM && len == 20 && count == 2);
    HAS(cs_forms(BYTES("key/+"), CS_FORM_HEX, room, 20, ends, 1, &len, &count) == CS_NO_ROOM && len == 20 && count == 2);
    HAS(room[0] == '-' && ends[0] == 0);
    HAS(cs_forms(BYTES("key/+"), CS_FORM_HEX, room, 20, ends, 2, &len, &count) == CS_DONE && len == 20 && count == 2);
    HAS(!memcmp(room, hex, 20) && room[20] == '-' && ends[0] == 10 && ends[1] == 20 && ends[2] == 0);
    HAS(cs_forms(BYTES("key/+"), CS_FORM_LINES, NULL, 0, NULL, 0, &len, &count) == CS_DONE && len == 0 && count == 0);
    HAS(cs_forms(BYTES("key/+"), 0, NULL, 0, NULL, 0, &len, &count) == CS_DONE && len == 0 && count == 0);
    HAS(cs_forms(BYTES("first line\nsecond line"), CS_FORM_LINES, room, 21, ends, 2, &len, &count) == CS_DONE && len == 21 && count == 2);
    HAS(!memcmp(room, "first linesecond line", 21) && ends[0] == 10 && ends[1] == 21);
    for (uint32_t bits = 1; bits < CS_FORMS_ALL; bits *= 2) {
        size_t one = 0, one_count = 0;
        HAS(cs_forms(BYTES("a \"key\"/+<&>\n"), bits, room, sizeof room, ends, 400, &one, &one_count) == CS_DONE);
        HAS(one_count > 0 && ends[one_count - 1] == one);
    }
    /* The four characters that hold a bit of "key+" behind one byte, and the cover of that. */
    cs_searcher it = CS_SEARCHER_INIT;
    cs_slice words[400], marks[400];
    HAS(cs_forms(BYTES("key+"), CS_FORMS_ALL, room, sizeof room, ends, 400, &len, &count) == CS_DONE && len == ends[count - 1]);
    for (size_t at = 0, from = 0; at < count; from = ends[at++]) {
        words[at] = (cs_slice){ room + from, ends[at] - from };
        marks[at] = (cs_slice)SLICE("*");
    }
    HAS(cs_build(words, count, &(cs_options)CS_OPTIONS_INIT, &it) == CS_DONE);
    HAS(cs_cover_all(&it, BYTES("YTprZXkr, key%2b"), marks, count, room, sizeof room, &len) == CS_DONE && len == 6 && !memcmp(room, "YT*, *", 6));
    cs_free(&it);
    len = 5, count = 6, ends[0] = 7, room[0] = '-';
    HAS(cs_forms(BYTES("key"), CS_FORMS_ALL, room, sizeof room, ends, 400, &len, &count) == CS_TOO_SHORT);
    HAS(cs_forms(NULL, 0, CS_FORMS_ALL, room, sizeof room, ends, 400, &len, &count) == CS_TOO_SHORT);
    HAS(cs_forms(BYTES("key"), CS_FORMS_ALL + 1, room, sizeof room, ends, 400, &len, &count) == CS_NO_OPTION);
    HAS(cs_forms(BYTES("key+"), UINT32_MAX, room, sizeof room, ends, 400, &len, &count) == CS_NO_OPTION);
    HAS(len == 5 && count == 6 && ends[0] == 7 && room[0] == '-');
}

/* Pushes all of a piece, with what is certain told in between, and answers how many matches that were. */
static size_t pushed(cs_stream *stream, const uint8_t *piece, size_t left, cs_match *room) {
    size_t found = 0, taken = 0;
    do {
        HAS(cs_stream_push(stream, piece, left, &taken) == CS_DONE && taken <= left && (taken > 0 || left == 0));
        piece += taken;
        left -= taken;
        while (cs_stream_next(stream, &room[found]) == CS_FOUND) found++;
    } while (left > 0);
    return found;
}

/* Streams whose bytes are pushed, cut inside matches, by each match kind. */
static uint8_t long_text[300000];

static void streams(void) {
    cs_match room[ROOM];
    cs_stream stream = CS_STREAM_INIT;
    size_t taken = 5;
    cs_searcher it = built(CS_LEFTMOST_FIRST, CS_UNANCHORED);
    HAS(cs_stream_new(&it, &stream) == CS_DONE);
    cs_free(&it);
    HAS(pushed(&stream, BYTES("frodo"), room) == 0); /* nothing could take its place, and it waits for a byte */
    HAS(pushed(&stream, BYTES(" and sam"), room) == 1 && is(room[0], 2, 0, 5));
    HAS(pushed(&stream, NULL, 0, room) == 0);
    HAS(pushed(&stream, BYTES("wi"), room) == 0 && pushed(&stream, BYTES("x sam"), room) == 1 && is(room[0], 1, 10, 13));
    HAS(cs_stream_end(&stream) == CS_DONE && cs_stream_push(&stream, BYTES("sam"), &taken) == CS_ENDED && taken == 5);
    HAS(cs_stream_next(&stream, room) == CS_FOUND && is(room[0], 1, 17, 20));
    HAS(cs_stream_next(&stream, room) == CS_DONE && cs_stream_end(&stream) == CS_DONE && cs_stream_next(&stream, room) == CS_DONE);
    HAS(is(room[0], 1, 17, 20));
    it = built(CS_STANDARD, CS_UNANCHORED);
    HAS(cs_stream_new(&it, &stream) == CS_DONE);
    for (size_t at = 0; at < sizeof long_text; at++) long_text[at] = at % 100000 == 99998 ? 's' : 'x';
    HAS(pushed(&stream, long_text, sizeof long_text, room) == 3 && is(room[0], 3, 99998, 99999) && is(room[2], 3, 299998, 299999));
    HAS(pushed(&stream, BYTES("ss"), room) == 2 && is(room[1], 3, 300001, 300002));
    HAS(cs_stream_push(&stream, BYTES("ss"), &taken) == CS_DONE && taken == 2);
    HAS(cs_stream_push(&stream, BYTES("ss"), &taken) == CS_DONE && taken == 0);
    HAS(cs_stream_next(&stream, room) == CS_FOUND && cs_stream_next(&stream, room) == CS_FOUND && is(room[0], 3, 300003, 300004));
    HAS(cs_stream_new(&it, &stream) == CS_DONE); /* it takes as many as fit: a full buffer, and all but the last 7 bytes of it anew */
    HAS(cs_stream_push(&stream, long_text, 300000, &taken) == CS_DONE && taken == 65536 && cs_stream_next(&stream, room) == CS_DONE);
    HAS(cs_stream_push(&stream, long_text + 65536, 200000, &taken) == CS_DONE && taken == 65529 && cs_stream_next(&stream, room) == CS_FOUND);
    cs_free(&it);
    HAS(cs_stream_new(&it, &stream) == CS_NO_SEARCHER && stream.full);
    it = built(CS_STANDARD, CS_ANCHORED);
    HAS(cs_stream_new(&it, &stream) == CS_REFUSED && stream.full);
    cs_options options = CS_OPTIONS_INIT;
    cs_slice empty = { NULL, 0 };
    HAS(cs_build(&empty, 1, &options, &it) == CS_DONE && cs_stream_new(&it, &stream) == CS_EMPTY_PATTERN && stream.full);
    cs_free(&it);
    cs_stream_free(&stream);
    cs_stream_free(&stream);
    HAS(!stream.full && !stream.at);
    taken = 5;
    room[0] = (cs_match){ 7, 8, 9 };
    HAS(cs_stream_push(&stream, BYTES("sam"), &taken) == CS_NO_SEARCHER && cs_stream_next(&stream, room) == CS_NO_SEARCHER);
    HAS(cs_stream_end(&stream) == CS_NO_SEARCHER && taken == 5 && is(room[0], 7, 8, 9));
}

/* Pushes all of a piece, and puts the replacement of what is certain behind `to`. */
static uint8_t *replaced(cs_stream *stream, const cs_slice *marks, const uint8_t *piece, size_t left, uint8_t *to) {
    static uint8_t part[65536];
    size_t taken = 0, len = 0;
    do {
        HAS(cs_stream_push(stream, piece, left, &taken) == CS_DONE && taken <= left && (taken > 0 || left == 0));
        piece += taken;
        left -= taken;
        while (cs_stream_replace(stream, marks, PATTERNS, part, sizeof part, &len) == CS_FOUND) {
            memcpy(to, part, len);
            to += len;
        }
    } while (left > 0);
    return to;
}

/* Streams that are replaced, and where there is no room. */
static void replaced_streams(void) {
    static uint8_t all[400000];
    cs_slice marks[PATTERNS] = { SLICE("W"), SLICE(""), SLICE("[redacted]"), SLICE("s") };
    cs_stream stream = CS_STREAM_INIT;
    uint8_t room[16] = "as it was";
    size_t taken = 0, len = 5;
    cs_searcher it = built(CS_LEFTMOST_FIRST, CS_UNANCHORED);
    HAS(cs_stream_new(&it, &stream) == CS_DONE);
    uint8_t *to = replaced(&stream, marks, BYTES("frodo and sa"), all);
    to = replaced(&stream, marks, BYTES("m, fro"), to);
    HAS(cs_stream_end(&stream) == CS_DONE);
    HAS(cs_stream_replace(&stream, marks, PATTERNS - 1, room, sizeof room, &len) == CS_NOT_ONE_EACH && len == 5);
    HAS(cs_stream_replace(&stream, marks, PATTERNS, room, 9, &len) == CS_NO_ROOM && len == 10 && !memcmp(room, "as it was", 9));
    while (cs_stream_replace(&stream, marks, PATTERNS, room, sizeof room, &len) == CS_FOUND) {
        memcpy(to, room, len);
        to += len;
    }
    HAS(to - all == 20 && !memcmp(all, "[redacted] and , fro", 20));
    len = 5;
    HAS(cs_stream_replace(&stream, marks, PATTERNS, room, sizeof room, &len) == CS_DONE && len == 5);
    rebuild(&it, CS_STANDARD, CS_UNANCHORED);
    HAS(cs_stream_new(&it, &stream) == CS_DONE);
    marks[3] = (cs_slice)SLICE("twice");
    to = replaced(&stream, marks, long_text, sizeof long_text, all);
    HAS(cs_stream_end(&stream) == CS_DONE && cs_stream_replace(&stream, marks, PATTERNS, room, sizeof room, &len) == CS_DONE);
    HAS(to - all == 300012 && !memcmp(all + 99998, "twicex", 6) && !memcmp(all + 300006, "twicex", 6));
    HAS(cs_stream_new(&it, &stream) == CS_DONE && cs_stream_push(&stream, long_text, 100, &taken) == CS_DONE && taken == 100);
    HAS(cs_stream_replace(&stream, marks, PATTERNS, room, sizeof room, &len) == CS_NO_ROOM && len == 100);
    HAS(cs_stream_replace(&stream, marks, PATTERNS, all, 100, &len) == CS_FOUND && len == 100);
    cs_stream_free(&stream);
    HAS(cs_stream_replace(&stream, marks, PATTERNS, room, sizeof room, &len) == CS_NO_SEARCHER && len == 100);
    cs_free(&it);
}

static void tells(void) {
    cs_facts facts;
    cs_searcher it = built(CS_STANDARD, CS_UNANCHORED);
    HAS(cs_info(&it, &facts) == CS_DONE);
    HAS(facts.patterns == 4 && facts.min_len == 1 && facts.max_len == 7 && facts.memory > 0);
    cs_options options = CS_OPTIONS_INIT;
    HAS(cs_build(NULL, 0, &options, &it) == CS_DONE && cs_info(&it, &facts) == CS_DONE);
    HAS(facts.patterns == 0 && facts.min_len == SIZE_MAX && facts.max_len == 0);
    cs_free(&it);
    HAS(cs_version() == CS_VERSION);
    HAS(CS_VERSION_MAJOR * 10000 + CS_VERSION_MINOR * 100 + CS_VERSION_PATCH == CS_VERSION);
}

/* Handles that share one searcher, each in a thread of its own. */
#define THREADS 8
static uint8_t text[1 << 18];
static size_t wanted;

static void *searched(void *handle) {
    for (int turn = 0; turn < 8; turn++) {
        size_t count = 0;
        HAS(cs_find_all(handle, text, sizeof text, NULL, 0, &count) == CS_DONE && count == wanted);
    }
    cs_free(handle);
    return NULL;
}

static void shares(void) {
    cs_searcher it = built(CS_STANDARD, CS_UNANCHORED), other = CS_SEARCHER_INIT, some[THREADS];
    HAS(cs_share(&it, &other) == CS_DONE);
    cs_free(&it);
    HAS(cs_is_match(&other, BYTES("sam")) == CS_FOUND && cs_is_match(&it, BYTES("sam")) == CS_NO_SEARCHER);
    for (size_t at = 0; at < sizeof text; at++) text[at] = "frodo and samwise "[at % 18];
    HAS(cs_find_all(&other, text, sizeof text, NULL, 0, &wanted) == CS_DONE && wanted > 0);
    pthread_t threads[THREADS];
    for (int at = 0; at < THREADS; at++) {
        some[at] = (cs_searcher)CS_SEARCHER_INIT;
        HAS(cs_share(&other, &some[at]) == CS_DONE);
        HAS(pthread_create(&threads[at], NULL, searched, &some[at]) == 0);
    }
    for (int at = 0; at < THREADS; at++) HAS(pthread_join(threads[at], NULL) == 0);
    cs_free(&other);
}

/* The first of two statuses that tells of no memory, which each of them may alone. */
static uint32_t first_of(uint32_t status, uint32_t next) {
    HAS(next == CS_DONE || next == CS_NO_MEMORY);
    return status == CS_DONE ? next : status;
}

/* Tells a count of matches for memory that is refused: what was built, or why not. */
static int refused(void) {
    cs_searcher it = CS_SEARCHER_INIT, other = CS_SEARCHER_INIT;
    cs_options options = CS_OPTIONS_INIT;
    uint8_t room[64];
    size_t len;
    cs_error error = { CS_TOO_LONG, 0, 1, 2, 3 };
    uint32_t told = cs_error_text(&error, room, 64, &len);
    HAS(told == CS_DONE ? len == 63 : told == CS_NO_MEMORY);
    error.status = CS_NO_MEMORY;
    HAS(cs_error_text(&error, room, 64, &len) == CS_DONE && len == 13);
    uint32_t status = cs_try_build(names, 4, &options, &it, &error);
    HAS(status == CS_DONE ? it.full : status == CS_NO_MEMORY && error.status == CS_NO_MEMORY && !it.full);
    status = told == CS_DONE ? status : told;
    if (status == CS_DONE) {
        status = cs_share(&it, &other);
        HAS(status == CS_DONE ? other.full : status == CS_NO_MEMORY && !other.full);
        status = first_of(status, cs_replace_all(&it, BYTES("frodo, samwise"), others, 4, room, 64, &len));
        status = first_of(status, cs_cover_all(&it, BYTES("frodo, samwise"), others, 4, room, 64, &len));
        size_t ends[2], count = 0;
        uint32_t formed = cs_forms(BYTES("key/+"), CS_FORM_HEX, room, 64, ends, 2, &len, &count);
        HAS(formed == CS_DONE ? count == 2 && len == 20 : count == 0);
        status = first_of(status, formed);
    }
    cs_stream stream = CS_STREAM_INIT;
    if (status == CS_DONE) {
        status = cs_stream_new(&it, &stream);
        HAS(status == CS_DONE ? stream.full : status == CS_NO_MEMORY && !stream.full);
    }
    cs_stream_free(&stream);
    cs_free(&it);
    cs_free(&other);
    return status == CS_DONE ? 0 : 5;
}

/* Random calls, whose answers are written: two builds of the library have to write the same. */
static uint64_t below(uint64_t end) {
    static uint64_t dice = 88172645463325252;
    dice ^= dice << 13;
    dice ^= dice >> 7;
    dice ^= dice << 17;
    return dice % end;
}

static void put(const void *from, size_t len) {
    HAS(fwrite(from, 1, len, stdout) == len);
}

/* Words of few or many letters, and a text of other ones in which some of the words stand. */
static size_t random_words(cs_slice *words, uint8_t *letters, size_t most) {
    size_t count = 1 + below(most), many = 2 + below(below(2) ? 6 : 250), least = 1 + below(8);
    for (size_t word = 0; word < count; word++) {
        words[word] = (cs_slice){ letters, least + below(12) };
        for (size_t at = 0; at < words[word].len; at++) *letters++ = (uint8_t)('a' + below(many));
    }
    return count;
}

static size_t random_text(const cs_slice *words, size_t count, uint8_t *to, size_t len) {
    size_t many = 2 + below(below(2) ? 6 : 250), each = 10 + below(2000), taken = 0;
    while (taken < len) {
        cs_slice word = words[below(count)];
        for (size_t left = below(each); left > 0 && taken < len; left--) to[taken++] = (uint8_t)('z' - below(many));
        for (size_t at = 0; at < word.len && taken < len; at++) to[taken++] = word.at[at];
    }
    return taken;
}

static void answers(cs_searcher *it, const cs_slice *words, size_t count, const uint8_t *from, size_t len) {
    enum { MATCHES = 1 << 14, LARGE = 1 << 18 };
    static cs_match matches[MATCHES];
    static uint8_t room[LARGE];
    uint32_t (*lists[])(cs_searcher *, const uint8_t *, size_t, cs_match *, size_t, size_t *) = { cs_find_all, cs_overlapping };
    uint32_t (*replaces[])(cs_searcher *, const uint8_t *, size_t, const cs_slice *, size_t, uint8_t *, size_t, size_t *) = { cs_replace_all, cs_cover_all };
    cs_stream stream = CS_STREAM_INIT;
    for (int way = 0; way < 2; way++) {
        size_t found = 0, put_there = 0;
        uint32_t told[2] = { lists[way](it, from, len, matches, MATCHES, &found), replaces[way](it, from, len, words, count, room, LARGE, &put_there) };
        put(told, sizeof told);
        put(matches, sizeof *matches * (found < MATCHES ? found : MATCHES));
        put(room, put_there < LARGE ? put_there : 0);
    }
    if (cs_stream_new(it, &stream) == CS_DONE) put(matches, sizeof *matches * pushed(&stream, from, len, matches));
    cs_stream_free(&stream);
}

static int random_calls(int calls) {
    static uint8_t letters[1 << 16], haystack[1 << 14];
    static cs_slice words[3000];
    while (calls-- > 0) {
        cs_searcher it = CS_SEARCHER_INIT;
        cs_options options = CS_OPTIONS_INIT;
        size_t count = random_words(words, letters, below(4) ? 1 + below(100) : 3000);
        options.match_kind = (uint32_t)below(3);
        options.start_kind = below(4) ? CS_UNANCHORED : CS_BOTH;
        options.ignore_case = below(4) == 0;
        options.automaton = (uint32_t)below(3);
        HAS(cs_build(words, count, &options, &it) == CS_DONE);
        for (int texts = 0; texts < 4; texts++) {
            size_t from = below(64), len = random_text(words, count, haystack, below(2) ? below(200) : sizeof haystack);
            from = from < len ? from : 0;
            answers(&it, words, count, haystack + from, len - from);
        }
        cs_free(&it);
    }
    return 0;
}

int main(int count, char **words) {
    if (count > 1 && !strcmp(words[1], "refused")) return refused();
    if (count > 2 && !strcmp(words[1], "random")) return random_calls(atoi(words[2]));
    void (*rows[])(void) = { none, builds, errors, finds, searches, lists, states, replaces, covers, forms, streams, replaced_streams, tells, shares };
    for (size_t at = 0; at < sizeof rows / sizeof *rows; at++) rows[at]();
    return 0;
}

/* What crosses, as the archive has it: sizes and places. It is compiled as C11 and as C++17, and calls each function once. */
#include "../../include/redplay.h"
#include "services.h"
#include <stdio.h>
#ifndef __cplusplus
#include <assert.h>
#endif

static_assert(sizeof(redplay) == 8, "a handle is an address");
static_assert(sizeof(redplay_source) == 32 && offsetof(redplay_source, content_length) == 24, "a file is two slices");
static_assert(offsetof(redplay_source, name_length) == 8 && offsetof(redplay_source, content) == 16, "in this order");
static_assert(sizeof(redplay_totals) == 24 && offsetof(redplay_totals, budget) == 8, "three numbers of 64 bits");
static_assert(offsetof(redplay_totals, faults) == 16, "in this order");
static_assert(sizeof(redplay_limits) == 48 && offsetof(redplay_limits, key) == 8, "six numbers of 64 bits");
static_assert(offsetof(redplay_limits, tick) == 16 && offsetof(redplay_limits, stream) == 24, "in this order");
static_assert(offsetof(redplay_limits, engine) == 32 && offsetof(redplay_limits, arrive) == 40, "and this");
static_assert(sizeof(redplay_cell) == 12 && offsetof(redplay_cell, fore) == 4, "three numbers of 32 bits");
static_assert(offsetof(redplay_cell, back) == 8, "in this order");

static int wrong = 0;

static void is(const char *call, uint64_t found, uint64_t wanted) {
    if (found == wanted) return;
    printf("%s: %llu in place of %llu\n", call, (unsigned long long)found, (unsigned long long)wanted);
    wrong = 1;
}

/* The text is this one, of which so much was written as there was room for. */
static void reads(const char *call, const uint8_t *text, size_t room, size_t length, const char *wanted) {
    is(call, length, strlen(wanted));
    if (!memcmp(text, wanted, room < length ? room : length)) return;
    printf("%s: %.*s in place of %s\n", call, (int)(room < length ? room : length), (const char *)text, wanted);
    wrong = 1;
}

/* A handle without a session answers its number, and nothing is written. */
static void without_session(redplay *none) {
    redplay_totals totals = {7, 7, 7};
    redplay_limits limits = {7, 7, 7, 7, 7, 7};
    redplay_cell cells[1] = {{7, 7, 7}};
    uint64_t rows = 7;
    uint8_t text[1] = {7};
    size_t length = 7;
    is("key", redplay_key(none, REDPLAY_KEY_RED), REDPLAY_NO_SESSION);
    is("tick", redplay_tick(none, 1), REDPLAY_NO_SESSION);
    is("stream", redplay_stream(none, 1), REDPLAY_NO_SESSION);
    is("event", redplay_event(none, 1), REDPLAY_NO_SESSION);
    is("file", redplay_file(none, text, 1, text, 1), REDPLAY_NO_SESSION);
    is("scene", redplay_scene(none, text, 1, text, 1), REDPLAY_NO_SESSION);
    is("advance", redplay_advance(none, 1), REDPLAY_NO_SESSION);
    is("rest", redplay_rest(none), REDPLAY_NO_SESSION);
    is("counts", redplay_counts(none, &totals), REDPLAY_NO_SESSION);
    is("bounds", redplay_bounds(none, &limits), REDPLAY_NO_SESSION);
    is("fault", redplay_fault(none, 0, text, 1, &length), REDPLAY_NO_SESSION);
    is("awaited", redplay_awaited(none, text, 1, &length), REDPLAY_NO_SESSION);
    is("changed", redplay_changed(none, &rows), REDPLAY_NO_SESSION);
    is("cells", redplay_cells(none, 0, cells, 1), REDPLAY_NO_SESSION);
    is("free", redplay_free(none), REDPLAY_NO_SESSION);
    is("what was not written", totals.taken + limits.arrive + rows + cells[0].scalar + text[0] + length, 42);
}

static const uint8_t *const start = (const uint8_t *)"a";

/* The numbers that calls answer, and no others, have texts, none of them longer than the header says. */
static void texts(void) {
    static const uint32_t gaps[][2] = {{8, 9}, {15, 19}, {25, 29}, {36, 36}, {38, 39}, {42, 50}, {55, 56}, {59, 69}, {74, 99}, {103, 103}, {108, 999}};
    uint8_t text[128] = {0};
    size_t length = 0;
    for (uint32_t number = 0, gap = 0; number < 1000; number++) {
        while (number > gaps[gap][1]) gap++;
        bool is_answered = number < gaps[gap][0];
        is("why", redplay_why(number, text, sizeof text, &length), is_answered ? REDPLAY_GOOD : REDPLAY_OUT_OF_RANGE);
        is("a text that fits", length > 0 && length <= sizeof text, 1);
    }
    is("why", redplay_why(REDPLAY_QUEUE_FULL, text, 10, &length), REDPLAY_GOOD);
    reads("a part of a text", text, 10, length, "256 inputs wait: make steps, and post again");
    length = 7;
    is("why", redplay_why(8, text, sizeof text, &length), REDPLAY_OUT_OF_RANGE);
    is("its length", length, 7);
}

/* (NULL, 0) is an empty piece, and room for nothing. */
static void empty_pieces(redplay *one) {
    redplay_source empty[4] = {plain[0], plain[1], plain[2], {plain[3].name, 4, NULL, 0}};
    size_t length = 0;
    is("no files", redplay_check(NULL, 0, NULL, 0, NULL, 0, NULL, 0, &length), 31);
    is("its line", length, strlen("service 31 \n"));
    is("no room", redplay_check(plain, 4, start, 1, NULL, 0, NULL, 0, &length), REDPLAY_GOOD);
    is("a verdict's length", length, strlen("accepted\nstart 17\nkey 17\ntick 1\nstream 1\nengine 1\narrive 6\n"));
    is("no room for a text", redplay_why(52, NULL, 0, &length), REDPLAY_GOOD);
    is("a text's length", length, strlen("the application has quit"));
    is("nothing to start", redplay_start(one, NULL, 0, NULL, 0, NULL, 0, 60000, false), 31);
    is("an empty file", redplay_start(one, empty, 4, start, 1, late, 1, 60000, false), REDPLAY_GOOD);
    is("one that arrives", redplay_file(one, (const uint8_t *)"line", 4, NULL, 0), REDPLAY_GOOD);
    is("a file without a name", redplay_file(one, NULL, 0, NULL, 0), REDPLAY_NO_PATH);
    is("a scene without a name", redplay_scene(one, NULL, 0, NULL, 0), REDPLAY_NO_PATH);
    is("an empty scene", redplay_scene(one, late, 1, NULL, 0) > 0, 1);
    is("no cells", redplay_cells(one, 0, NULL, 0), REDPLAY_GOOD);
    is("no fault", redplay_fault(one, 0, NULL, 0, &length), REDPLAY_OUT_OF_RANGE);
    is("advance", redplay_advance(one, UINT32_MAX), REDPLAY_GOOD);
    is("free", redplay_free(one), REDPLAY_GOOD);
}

/* What is told of services: an accepted one, with little room and with enough, a refused one, and what is none. */
static void verdicts(void) {
    redplay_source broken[1] = {SOURCE("a", "{:Applicatoin")}, unnamed[1] = {SOURCE("../a", "")};
    uint8_t text[512] = {0};
    size_t length = 0;
    const char *accepted = "accepted\nstart 17\nkey 17\ntick 1\nstream 1\nengine 1\narrive 15\n";
    is("check", redplay_check(plain, 4, start, 1, late, 1, text, 4, &length), REDPLAY_GOOD);
    reads("a part of a verdict", text, 4, length, accepted);
    is("no more than there was room for", text[4], 0);
    is("check again", redplay_check(plain, 4, start, 1, late, 1, text, sizeof text, &length), REDPLAY_GOOD);
    reads("a verdict", text, sizeof text, length, accepted);
    is("a refused service", redplay_check(faulty, 2, start, 1, start, 0, text, sizeof text, &length), REDPLAY_UNACCEPTED);
    reads("its lines", text, sizeof text, length, "refused V1 s 11 1 SetPosition\nconfig a s\nobject s 99\n");
    is("what is no group", redplay_check(broken, 1, start, 1, start, 0, text, sizeof text, &length), 22);
    reads("its line", text, sizeof text, length, "file a 22 1\n");
    length = 7;
    is("what is no path", redplay_check(unnamed, 1, start, 1, start, 0, text, sizeof text, &length), REDPLAY_NO_PATH);
    is("its length", length, 7);
}

/* What stands in the way of a session. */
static void unstarted(redplay *none) {
    redplay_source broken[1] = {SOURCE("a", "{:Applicatoin")}, unnamed[1] = {SOURCE("../a", "")};
    is("a day", redplay_start(none, plain, 4, start, 1, start, 0, 1000001, false), REDPLAY_OUT_OF_RANGE);
    is("no path", redplay_start(none, unnamed, 1, start, 1, start, 0, 60000, false), REDPLAY_NO_PATH);
    is("no group", redplay_start(none, broken, 1, start, 1, start, 0, 60000, false), 22);
    is("no start", redplay_start(none, plain, 4, (const uint8_t *)"b", 1, start, 0, 60000, false), 31);
    is("no scene", redplay_start(none, plain, 4, start, 1, start, 1, 60000, false), 37);
    is("refused", redplay_start(none, faulty, 2, start, 1, start, 0, 60000, false), REDPLAY_UNACCEPTED);
    is("no seal", redplay_start_sealed(none, start, 1, plain, 4, 60000), REDPLAY_NO_SEAL);
    is("an empty seal", redplay_start_sealed(none, NULL, 0, NULL, 0, 60000), REDPLAY_NO_SEAL);
    is("a day before the seal", redplay_start_sealed(none, start, 1, plain, 4, 1000001), REDPLAY_OUT_OF_RANGE);
    is("another seal", redplay_start_sealed(none, (const uint8_t *)"redplay seal 2\n", 15, plain, 4, 60000), REDPLAY_OTHER_SEAL);
    is("no session yet", redplay_free(none), REDPLAY_NO_SESSION);
}

/* What each call answers, and what is seen, of a box that moves on red, a line that comes from a file, and a late scene. */
static void with_session(redplay *one) {
    redplay_totals totals = {0, 0, 0};
    redplay_limits limits = {0, 0, 0, 0, 0, 0};
    redplay_cell cells[2] = {{0, 0, 0}, {0, 0, 0}};
    uint64_t rows = 0;
    uint8_t text[1] = {7};
    size_t length = 7;
    is("start", redplay_start(one, plain, 4, start, 1, late, 1, 60000, false), REDPLAY_GOOD);
    is("start again", redplay_start(one, plain, 4, start, 1, late, 1, 60000, false), REDPLAY_IN_USE);
    is("bounds", redplay_bounds(one, &limits), REDPLAY_GOOD);
    is("limits", limits.start * 10000 + limits.key * 1000 + limits.tick + limits.stream + limits.engine + limits.arrive, 187018);
    is("advance", redplay_advance(one, UINT32_MAX), REDPLAY_GOOD);
    is("rest", redplay_rest(one), REDPLAY_IDLE);
    is("changed", redplay_changed(one, &rows), REDPLAY_GOOD);
    is("rows", rows, 1 << 10 | 6);
    is("cells", redplay_cells(one, 1, cells, 2), REDPLAY_GOOD);
    is("a cell", cells[1].scalar * 16777216ull + cells[1].back + cells[1].fore, 32 * 16777216ull + 0xff0000);
    is("a cell that is not there", redplay_cells(one, 36, cells, 1), REDPLAY_OUT_OF_RANGE);
    is("no key", redplay_key(one, 17), REDPLAY_NO_KEY);
    is("no tick", redplay_tick(one, 0), REDPLAY_TICK_RANGE);
    is("no path", redplay_file(one, (const uint8_t *)"/", 1, start, 1), REDPLAY_NO_PATH);
    is("no scene", redplay_scene(one, late, 1, start, 1), 22);
    is("not late", redplay_scene(one, plain[1].name, 1, plain[1].content, plain[1].content_length), REDPLAY_NOT_LATE);
    is("another", redplay_scene(one, late, 1, plain[1].content, plain[1].content_length), REDPLAY_SCENE_DIFFERS);
    is("file", redplay_file(one, (const uint8_t *)"line", 4, (const uint8_t *)"B", 1), REDPLAY_GOOD);
    is("scene", redplay_scene(one, late, 1, plain[2].content, plain[2].content_length), REDPLAY_GOOD);
    is("key", redplay_key(one, REDPLAY_KEY_RED), REDPLAY_GOOD);
    is("advance", redplay_advance(one, UINT32_MAX), REDPLAY_GOOD);
    is("changed", redplay_changed(one, &rows), REDPLAY_GOOD);
    is("rows", rows, 1 << 10 | 1 << 5 | 6);
    is("counts", redplay_counts(one, &totals), REDPLAY_GOOD);
    is("faults", totals.faults, 0);
    is("within", totals.taken <= totals.budget, 1);
    is("no fault", redplay_fault(one, 0, text, 1, &length), REDPLAY_OUT_OF_RANGE);
    is("nothing told", text[0] + length, 14);
    is("free", redplay_free(one), REDPLAY_GOOD);
}

/* A fault of a service that is played leniently. */
static void with_fault(redplay *one) {
    redplay_limits limits = {0, 0, 0, 0, 0, 0};
    uint8_t text[64] = {0};
    size_t length = 0;
    is("start", redplay_start(one, faulty, 2, start, 1, start, 0, 60000, true), REDPLAY_GOOD);
    is("bounds", redplay_bounds(one, &limits), REDPLAY_GOOD);
    is("none is known", limits.key, UINT64_MAX);
    is("key", redplay_key(one, REDPLAY_KEY_RED), REDPLAY_GOOD);
    is("advance", redplay_advance(one, UINT32_MAX), REDPLAY_GOOD);
    is("fault", redplay_fault(one, 0, text, sizeof text, &length), REDPLAY_GOOD);
    reads("a fault", text, sizeof text, length, "fault absent SetPosition s 99\n");
    is("no other", redplay_fault(one, 1, text, sizeof text, &length), REDPLAY_OUT_OF_RANGE);
    is("free", redplay_free(one), REDPLAY_GOOD);
}

/* What is waited for: a line's file, which is not there; and behind the key a late scene. */
static void with_late_files(redplay *one) {
    uint8_t text[64] = {0};
    size_t length = 7;
    is("start", redplay_start(one, plain, 3, start, 1, late, 1, 60000, false), REDPLAY_GOOD);
    is("awaited", redplay_awaited(one, text, sizeof text, &length), REDPLAY_GOOD);
    is("nothing yet", length, 0);
    is("advance", redplay_advance(one, UINT32_MAX), REDPLAY_GOOD);
    is("awaited", redplay_awaited(one, text, sizeof text, &length), REDPLAY_GOOD);
    reads("a file", text, sizeof text, length, "file line\n");
    is("key", redplay_key(one, REDPLAY_KEY_RED), REDPLAY_GOOD);
    is("advance", redplay_advance(one, UINT32_MAX), REDPLAY_GOOD);
    is("awaited", redplay_awaited(one, text, sizeof text, &length), REDPLAY_GOOD);
    reads("a scene and a file", text, sizeof text, length, "scene t\nfile line\n");
    is("a part", redplay_awaited(one, text, 4, &length), REDPLAY_GOOD);
    is("the whole length", length, strlen("scene t\nfile line\n"));
    is("free", redplay_free(one), REDPLAY_GOOD);
}

int main(void) {
    redplay handle = REDPLAY_NONE;
    is("version", redplay_version(), REDPLAY_VERSION);
    is("version of the engine", redplay_engine_version(), REDPLAY_ENGINE_VERSION);
    texts();
    without_session(&handle);
    verdicts();
    empty_pieces(&handle);
    unstarted(&handle);
    with_session(&handle);
    with_fault(&handle);
    with_late_files(&handle);
    without_session(&handle);
    printf("%s\n", wrong ? "layout: wrong" : "layout: each call answers as the header says");
    return wrong;
}

/* How deep the stack goes in each call, and how much memory is held, while a player plays: it is linked with the player and --wrap for
   malloc, realloc, free and the calls below. Each call is made on a stack of its own, which was filled before. To standard error go, in
   bytes, how deep the stack went at the start and in a turn, and how much memory was held behind the start and at most; the status is 9
   where the stack is deeper than docs/EMBEDDING_C.md says. */
#define _GNU_SOURCE
#include "../../include/redplay.h"
#include <malloc.h>
#include <stdio.h>
#include <stdlib.h>
#include <string.h>
#include <ucontext.h>
#include <unistd.h>

/* In bytes: the stack that is lent, and the depth that is documented. */
enum { STACK = 1 << 20, DEEPEST_START = 64 * 1024, DEEPEST_TURN = 16 * 1024, FILL = 0xA5 };

static uint8_t stack[STACK] __attribute__((aligned(64)));
static ucontext_t here, there;
static size_t held, most_held, started_held, deepest_start, deepest_turn;

void *__real_malloc(size_t size);
void *__real_realloc(void *old, size_t size);
void __real_free(void *old);

/* Only what is asked for in a call is counted. */
static int in_call;

static void *counted(void *block) {
    if (in_call && block) held += malloc_usable_size(block);
    if (held > most_held) most_held = held;
    return block;
}

static void uncounted(void *block) {
    if (in_call && block) held -= malloc_usable_size(block);
}

void *__wrap_malloc(size_t size) { return counted(__real_malloc(size)); }

void *__wrap_realloc(void *old, size_t size) {
    uncounted(old);
    void *block = __real_realloc(old, size);
    return counted(block ? block : size ? old : NULL);
}

void __wrap_free(void *old) {
    uncounted(old);
    __real_free(old);
}

/* Runs what does a call on the stack that is lent, and answers how much of that was written. */
static size_t depth_of(void (*does)(void)) {
    memset(stack, FILL, sizeof stack);
    getcontext(&there);
    there.uc_stack.ss_sp = stack;
    there.uc_stack.ss_size = sizeof stack;
    there.uc_link = &here;
    makecontext(&there, does, 0);
    in_call = 1;
    swapcontext(&here, &there);
    in_call = 0;
    size_t left = 0;
    while (left < sizeof stack && stack[left] == FILL) left++;
    return sizeof stack - left;
}

static void deepens(size_t *deepest, size_t depth) {
    if (depth > *deepest) *deepest = depth;
}

/* What is handed on to a call, and what it answers. */
static struct {
    redplay *session;
    const redplay *looked_at;
    const redplay_source *files;
    const uint8_t *start, *late;
    size_t count, start_length, late_length, row;
    uint8_t *text;
    size_t text_length, *length;
    redplay_cell *cells;
    uint64_t *rows;
    uint32_t number, answer;
    bool lenient;
} call;

uint32_t __real_redplay_start(redplay *, const redplay_source *, size_t, const uint8_t *, size_t, const uint8_t *, size_t, uint32_t, bool);
uint32_t __real_redplay_check(const redplay_source *, size_t, const uint8_t *, size_t, const uint8_t *, size_t, uint8_t *, size_t, size_t *);
uint32_t __real_redplay_advance(redplay *, uint32_t);
uint32_t __real_redplay_key(redplay *, uint32_t);
uint32_t __real_redplay_tick(redplay *, uint32_t);
uint32_t __real_redplay_cells(const redplay *, size_t, redplay_cell *, size_t);
uint32_t __real_redplay_changed(redplay *, uint64_t *);
uint32_t __real_redplay_free(redplay *);

static void do_start(void) {
    call.answer = __real_redplay_start(call.session, call.files, call.count, call.start, call.start_length, call.late, call.late_length,
                                       call.number, call.lenient);
}

static void do_check(void) {
    call.answer = __real_redplay_check(call.files, call.count, call.start, call.start_length, call.late, call.late_length, call.text,
                                       call.text_length, call.length);
}

static void do_advance(void) { call.answer = __real_redplay_advance(call.session, call.number); }
static void do_key(void) { call.answer = __real_redplay_key(call.session, call.number); }
static void do_tick(void) { call.answer = __real_redplay_tick(call.session, call.number); }
static void do_cells(void) { call.answer = __real_redplay_cells(call.looked_at, call.row, call.cells, call.count); }
static void do_changed(void) { call.answer = __real_redplay_changed(call.session, call.rows); }
static void do_free(void) { call.answer = __real_redplay_free(call.session); }

static void hand_on(const redplay_source *files, size_t count, const uint8_t *start, size_t start_length, const uint8_t *late,
                    size_t late_length) {
    call.files = files;
    call.count = count;
    call.start = start;
    call.start_length = start_length;
    call.late = late;
    call.late_length = late_length;
}

uint32_t __wrap_redplay_start(redplay *session, const redplay_source *files, size_t count, const uint8_t *start, size_t start_length,
                              const uint8_t *late, size_t late_length, uint32_t day, bool lenient) {
    hand_on(files, count, start, start_length, late, late_length);
    call.session = session;
    call.number = day;
    call.lenient = lenient;
    deepens(&deepest_start, depth_of(do_start));
    started_held = held;
    return call.answer;
}

uint32_t __wrap_redplay_check(const redplay_source *files, size_t count, const uint8_t *start, size_t start_length, const uint8_t *late,
                              size_t late_length, uint8_t *text, size_t text_length, size_t *length) {
    hand_on(files, count, start, start_length, late, late_length);
    call.text = text;
    call.text_length = text_length;
    call.length = length;
    deepens(&deepest_start, depth_of(do_check));
    return call.answer;
}

static uint32_t turn(redplay *session, uint32_t number, void (*does)(void)) {
    call.session = session;
    call.number = number;
    deepens(&deepest_turn, depth_of(does));
    return call.answer;
}

uint32_t __wrap_redplay_advance(redplay *session, uint32_t most) { return turn(session, most, do_advance); }
uint32_t __wrap_redplay_key(redplay *session, uint32_t key) { return turn(session, key, do_key); }
uint32_t __wrap_redplay_tick(redplay *session, uint32_t milliseconds) { return turn(session, milliseconds, do_tick); }
uint32_t __wrap_redplay_free(redplay *session) { return turn(session, 0, do_free); }

uint32_t __wrap_redplay_changed(redplay *session, uint64_t *rows) {
    call.rows = rows;
    return turn(session, 0, do_changed);
}

uint32_t __wrap_redplay_cells(const redplay *session, size_t row, redplay_cell *cells, size_t count) {
    call.looked_at = session;
    call.row = row;
    call.cells = cells;
    call.count = count;
    deepens(&deepest_turn, depth_of(do_cells));
    return call.answer;
}

__attribute__((destructor)) static void tell(void) {
    fprintf(stderr, "measured %zu %zu %zu %zu\n", deepest_start, deepest_turn, started_held, most_held);
    if (deepest_start > DEEPEST_START || deepest_turn > DEEPEST_TURN) _exit(9);
}

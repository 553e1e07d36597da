/* Each growth of memory refused in turn, from outside: the call says so, has kept nothing, and made again it does what it
   does otherwise. All memory is given back. It is linked with --wrap for malloc, realloc and free. */
#include "../../include/redplay.h"
#include "services.h"
#include <stdio.h>
#include <stdlib.h>

void *__real_malloc(size_t size);
void *__real_realloc(void *old, size_t size);
void __real_free(void *old);
void *__wrap_malloc(size_t size);
void *__wrap_realloc(void *old, size_t size);
void __wrap_free(void *old);

/* How many growths were asked for, the one that is refused, and how many blocks are held. */
static size_t asked, refused;
static long held;

void *__wrap_malloc(size_t size) {
    if (++asked == refused) return NULL;
    void *block = __real_malloc(size);
    held += block != NULL;
    return block;
}

void *__wrap_realloc(void *old, size_t size) {
    if (++asked == refused) return NULL;
    void *block = __real_realloc(old, size);
    held += block != NULL && old == NULL;
    return block;
}

void __wrap_free(void *old) {
    held -= old != NULL;
    __real_free(old);
}

typedef struct {
    redplay_totals totals;
    redplay_limits limits;
    uint64_t rows, lengths[3];
    uint8_t verdicts[2][512], fault[64];
    redplay_cell cells[REDPLAY_CELLS];
} seen;

static int wrong;

/* How many calls answered that memory was refused. */
static size_t starved;

/* A call answered this: it may be made again where memory was refused, and else has to answer what is wanted. */
static bool again(const char *call, uint32_t answer, uint32_t wanted) {
    if (answer == REDPLAY_NO_MEMORY) { starved++; return true; }
    if (answer == wanted) return false;
    printf("growth %zu: %s answers %u\n", refused, call, (unsigned)answer);
    wrong = 1;
    return false;
}

#define AGAIN(call, wanted)                                       \
    do {                                                          \
        if (again(#call, (call), wanted) && again(#call, (call), wanted)) wrong = 1; \
    } while (0)

static const uint8_t *const start = (const uint8_t *)"a";

static void check(seen *all) {
    size_t length = 0;
    AGAIN(redplay_check(plain, 4, start, 1, late, 1, all->verdicts[0], sizeof all->verdicts[0], &length), REDPLAY_GOOD);
    all->lengths[0] = length;
    AGAIN(redplay_check(faulty, 2, start, 1, start, 0, all->verdicts[1], sizeof all->verdicts[1], &length), REDPLAY_UNACCEPTED);
    all->lengths[1] = length;
}

static void play(seen *all) {
    redplay session = REDPLAY_NONE;
    AGAIN(redplay_start(&session, plain, 4, start, 1, late, 1, 60000, false), REDPLAY_GOOD);
    AGAIN(redplay_advance(&session, UINT32_MAX), REDPLAY_GOOD);
    AGAIN(redplay_key(&session, REDPLAY_KEY_RED), REDPLAY_GOOD);
    AGAIN(redplay_tick(&session, 20), REDPLAY_GOOD);
    AGAIN(redplay_advance(&session, UINT32_MAX), REDPLAY_GOOD);
    AGAIN(redplay_file(&session, (const uint8_t *)"line", 4, (const uint8_t *)"B", 1), REDPLAY_GOOD);
    AGAIN(redplay_scene(&session, late, 1, plain[2].content, plain[2].content_length), REDPLAY_GOOD);
    AGAIN(redplay_advance(&session, UINT32_MAX), REDPLAY_GOOD);
    AGAIN(redplay_counts(&session, &all->totals), REDPLAY_GOOD);
    AGAIN(redplay_bounds(&session, &all->limits), REDPLAY_GOOD);
    AGAIN(redplay_changed(&session, &all->rows), REDPLAY_GOOD);
    AGAIN(redplay_cells(&session, 0, all->cells, REDPLAY_CELLS), REDPLAY_GOOD);
    AGAIN(redplay_free(&session), REDPLAY_GOOD);
}

static void play_leniently(seen *all) {
    redplay session = REDPLAY_NONE;
    size_t length = 0;
    AGAIN(redplay_start(&session, faulty, 2, start, 1, start, 0, 60000, true), REDPLAY_GOOD);
    AGAIN(redplay_key(&session, REDPLAY_KEY_RED), REDPLAY_GOOD);
    AGAIN(redplay_advance(&session, UINT32_MAX), REDPLAY_GOOD);
    AGAIN(redplay_fault(&session, 0, all->fault, sizeof all->fault, &length), REDPLAY_GOOD);
    all->lengths[2] = length;
    AGAIN(redplay_free(&session), REDPLAY_GOOD);
}

static void all_calls(seen *all) {
    memset(all, 0, sizeof *all);
    asked = starved = 0;
    check(all);
    play(all);
    play_leniently(all);
}

int main(void) {
    static seen first, other;
    all_calls(&first);
    size_t most = asked;
    if (starved || !first.lengths[2]) wrong = 1;
    for (refused = 1; refused <= most && !wrong; refused++) {
        all_calls(&other);
        if (starved != 1) { printf("growth %zu: %zu calls say so\n", refused, starved); wrong = 1; }
        if (memcmp(&first, &other, sizeof first)) { printf("growth %zu: something else is seen\n", refused); wrong = 1; }
        if (held) { printf("growth %zu: %ld blocks are held\n", refused, held); wrong = 1; }
    }
    if (!wrong) printf("refused: each of %zu growths, in turn\n", most);
    return wrong;
}

/* Sessions on threads: many at once, each on its own; and one that goes from thread to thread between two calls. What each shows
   is compared with what one alone shows. */
#define _DEFAULT_SOURCE
#include "../../include/redplay.h"
#include "services.h"
#include <pthread.h>
#include <stdio.h>
#include <stdlib.h>

enum { THREADS = 8, ROUNDS = 20, TURNS = 200 };

typedef struct {
    redplay_totals totals;
    uint64_t rows;
    redplay_cell cells[REDPLAY_CELLS];
} shown;

static const uint8_t *const start = (const uint8_t *)"a";
static shown wanted;

static void must(uint32_t answer) {
    if (answer == REDPLAY_GOOD) return;
    printf("threads: a call answers %u\n", (unsigned)answer);
    exit(1);
}

/* The parts of a play, each of which may be another thread's. */
static void begin(redplay *session) {
    must(redplay_start(session, plain, 4, start, 1, late, 1, 60000, false));
    must(redplay_advance(session, UINT32_MAX));
}

static void press(redplay *session) {
    must(redplay_key(session, REDPLAY_KEY_RED));
    must(redplay_file(session, (const uint8_t *)"line", 4, (const uint8_t *)"B", 1));
    must(redplay_scene(session, late, 1, plain[2].content, plain[2].content_length));
    must(redplay_advance(session, UINT32_MAX));
}

static void look(redplay *session, shown *all) {
    memset(all, 0, sizeof *all);
    must(redplay_counts(session, &all->totals));
    must(redplay_changed(session, &all->rows));
    must(redplay_cells(session, 0, all->cells, REDPLAY_CELLS));
    must(redplay_free(session));
}

static void compare(const shown *all) {
    if (!memcmp(all, &wanted, sizeof wanted)) return;
    printf("threads: something else is shown\n");
    exit(1);
}

/* Whole plays, one behind the other. */
static void *play(void *none) {
    shown *all = malloc(sizeof *all);
    if (!all) exit(1);
    for (int round = 0; round < ROUNDS; round++) {
        redplay session = REDPLAY_NONE;
        begin(&session);
        press(&session);
        look(&session, all);
        compare(all);
    }
    free(all);
    return none;
}

static void *begin_there(void *session) {
    begin((redplay *)session);
    return NULL;
}

static void *press_there(void *session) {
    press((redplay *)session);
    return NULL;
}

static void on_a_thread(void *(*does)(void *), void *with) {
    pthread_t thread;
    if (pthread_create(&thread, NULL, does, with) || pthread_join(thread, NULL)) exit(1);
}

/* One session is started by a thread, played by another one, and looked at and freed here. */
static void hand_on(void) {
    static shown all;
    redplay session = REDPLAY_NONE;
    on_a_thread(begin_there, &session);
    on_a_thread(press_there, &session);
    look(&session, &all);
    compare(&all);
}

/* One session under a lock, to which all threads post and of which each makes the steps. */
static redplay common = REDPLAY_NONE;
static pthread_mutex_t lock = PTHREAD_MUTEX_INITIALIZER;

static void *take_turns(void *none) {
    for (int turn = 0; turn < TURNS; turn++) {
        pthread_mutex_lock(&lock);
        must(redplay_tick(&common, 20));
        must(redplay_advance(&common, UINT32_MAX));
        pthread_mutex_unlock(&lock);
    }
    return none;
}

static void on_all_threads(void *(*does)(void *)) {
    pthread_t threads[THREADS];
    for (int at = 0; at < THREADS; at++) {
        if (pthread_create(&threads[at], NULL, does, NULL)) exit(1);
    }
    for (int at = 0; at < THREADS; at++) pthread_join(threads[at], NULL);
}

int main(void) {
    redplay session = REDPLAY_NONE;
    begin(&session);
    press(&session);
    look(&session, &wanted);
    on_all_threads(play);
    hand_on();
    begin(&common);
    on_all_threads(take_turns);
    must(redplay_free(&common));
    printf("threads: %d at once show what one shows, and a session goes from one to another\n", THREADS);
    return 0;
}

/* The functions of docs/EMBEDDING_C.md, as they stand there, with what a receiver has besides: bench/embed/run puts the blocks into
   files of these names. A box is played through a stall, a full queue and a full clock; what goes by a seal is asked for one of
   another version alone. */
#include "../../include/redplay.h"
#include "services.h"
#include <stdio.h>
#include <string.h>

/* Milliseconds behind each turn: a frame, a stall, most of what a clock can count, and what is too much for it; again, to the end. */
static const uint32_t turns[] = {20, 130000, 4294000000u, 2000000, 20, 4294000000u, 2000000};

static unsigned turned, started, drawn, keys_left;

static void give_some_back(void) { printf("documented: memory was refused\n"); }

static uint32_t milliseconds_passed(void) {
    keys_left = turned ? 2 : 600; /* in the first turn more keys than can wait */
    return turns[turned++];
}

/* One that no service knows, and then the red one. */
static uint32_t next_key(void) {
    if (!keys_left) return 0;
    return keys_left-- % 2 ? REDPLAY_KEY_RED : 17;
}

static void draw_row(unsigned row, const redplay_cell *cells) { drawn += row < REDPLAY_ROWS && cells[0].scalar >= 32; }

/* Whether there is none to start any more. */
static bool start_service(redplay *session) {
    return started++ == 2 || redplay_start(session, plain, 4, (const uint8_t *)"a", 1, NULL, 0, 60000, false) != REDPLAY_GOOD;
}

#include "explain.h"
#include "loop.h"
#include "play.h"
#include "sealed.h"

bool next_brought(brought *item) {
    (void)item;
    return false;
}

void fetch_first(const uint8_t *name, size_t length) { printf("documented: fetch %.*s\n", (int)length, (const char *)name); }

int main(void) {
    const redplay_source broken[1] = {SOURCE("a", "{:Applicatoin")};
    redplay session = REDPLAY_NONE;
    explain(broken, 1, broken[0].name, 1);
    if (start_service(&session)) return 1;
    play(&session);
    const char *other = "redplay seal 2\n";
    if (play_sealed((const uint8_t *)other, strlen(other), plain, 4, 60000) != REDPLAY_OTHER_SEAL) return 1;
    printf("documented: %u turns, %u starts, %s\n", turned, started - 1, drawn ? "drawn" : "not drawn");
    return 0;
}

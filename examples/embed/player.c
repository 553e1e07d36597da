/*
 * player [--late FILE] [--lenient] FOLDER SCRIPT [START]: plays a script on the service of a folder, and prints what
 * `redplay play` prints of it. With --sealed FILE by the seal in it, with those files of the folder that it tells to be here, and
 * no verdict. With --check in the place of a script: what `redplay check` prints. Its exit status is theirs:
 * 1 a refused service, 2 what cannot be read, 3 faults.
 *
 * The commands of the script: run, step N, show, key NAME, tick N, stream N, engine N, file NAME HEX, scene NAME, scene NAME
 * HEX; empty lines and lines that begin with `#` are passed over. A receiver reads keys, a clock and a carousel in the place of
 * a script (docs/EMBEDDING_C.md has that loop).
 */
#define _DEFAULT_SOURCE
#include "../../include/redplay.h"
#include <dirent.h>
#include <inttypes.h>
#include <stdio.h>
#include <stdlib.h>
#include <string.h>
#include <sys/stat.h>

/* The most steps that `run` makes: those of `redplay`. Of a service that was accepted UINT32_MAX always ends, too. */
#define RUN_LIMIT 1000000

/* ---- Files ---- */

typedef struct { redplay_source *files; size_t count, room; } folder;

static void fail(const char *what, const char *which) {
    fprintf(stderr, "player: %s %s\n", what, which);
    exit(2);
}

/* A whole file, with its length. A zero byte is put behind it, since a script is gone through as a text. */
static uint8_t *read_whole(const char *path, size_t *length) {
    FILE *file = fopen(path, "rb");
    if (!file || fseek(file, 0, SEEK_END)) fail("cannot read", path);
    long size = ftell(file);
    rewind(file);
    uint8_t *bytes = size < 0 ? NULL : malloc((size_t)size + 1);
    if (!bytes || fread(bytes, 1, (size_t)size, file) != (size_t)size) fail("cannot read", path);
    fclose(file);
    bytes[size] = 0;
    *length = (size_t)size;
    return bytes;
}

static void add_file(folder *all, const char *path, const char *name) {
    if (all->count == all->room) {
        all->room = all->room ? 2 * all->room : 16;
        all->files = realloc(all->files, all->room * sizeof *all->files);
        if (!all->files) fail("no memory for", path);
    }
    redplay_source *file = &all->files[all->count++];
    file->name = (const uint8_t *)strdup(name);
    file->name_length = strlen(name);
    file->content = read_whole(path, &file->content_length);
}

/* Adds the files of a folder and of those in it. `below` is the path so far, with a slash at its end. */
static void gather(folder *all, const char *root, const char *below) {
    char path[4096], name[2048];
    snprintf(path, sizeof path, "%s/%s", root, below);
    DIR *open = opendir(path);
    if (!open) fail("cannot read", path);
    for (struct dirent *entry; (entry = readdir(open));) {
        struct stat is;
        if (!strcmp(entry->d_name, ".") || !strcmp(entry->d_name, "..")) continue;
        snprintf(name, sizeof name - 1, "%s%s", below, entry->d_name);
        snprintf(path, sizeof path, "%s/%s", root, name);
        if (stat(path, &is)) fail("cannot read", path);
        if (S_ISDIR(is.st_mode)) gather(all, root, strcat(name, "/"));
        else add_file(all, path, name);
    }
    closedir(open);
}

static int by_name(const void *one, const void *other) {
    return strcmp((const char *)((const redplay_source *)one)->name, (const char *)((const redplay_source *)other)->name);
}

/* The files of the folder and of those in it, in the order of their paths: of two mistakes the first by path is told. */
static void gather_all(folder *all, const char *root) {
    gather(all, root, "");
    if (all->count > 1) qsort(all->files, all->count, sizeof *all->files, by_name);
}

/* The file of the service that has this path. */
static const redplay_source *named(const folder *all, const char *name) {
    for (size_t at = 0; at < all->count; at++) {
        const redplay_source *file = &all->files[at];
        if (file->name_length == strlen(name) && !memcmp(file->name, name, file->name_length)) return file;
    }
    fail("no file is called", name);
    return NULL;
}

static void let_go(folder *all) {
    for (size_t at = 0; at < all->count; at++) {
        free((void *)all->files[at].name);
        free((void *)all->files[at].content);
    }
    free(all->files);
}

/* ---- Frames ---- */

/* A character between quotation marks, in UTF-8. */
static void put_character(uint32_t c) {
    if (c == '"' || c == '\\') putchar('\\');
    if (c < 0x80) {
        putchar((int)c);
    } else if (c < 0x800) {
        printf("%c%c", 0xC0 | c >> 6, 0x80 | (c & 63));
    } else if (c < 0x10000) {
        printf("%c%c%c", 0xE0 | c >> 12, 0x80 | (c >> 6 & 63), 0x80 | (c & 63));
    } else {
        printf("%c%c%c%c", 0xF0 | c >> 18, 0x80 | (c >> 12 & 63), 0x80 | (c >> 6 & 63), 0x80 | (c & 63));
    }
}

/* Cells of one pair of colours, which lie side by side. Black spaces on black are not printed, nor are spaces at the end. */
static void put_run(const redplay_cell *cells, unsigned first, unsigned behind) {
    unsigned end = behind;
    while (end > first && cells[end - 1].scalar == 32) end--;
    if (end == first && cells[first].fore == 0 && cells[first].back == 0) return;
    printf(" %u-%u %06" PRIx32 "/%06" PRIx32 " \"", first, behind - 1, cells[first].fore, cells[first].back);
    for (unsigned at = first; at < end; at++) put_character(cells[at].scalar);
    putchar('"');
}

static void put_row(unsigned row, const redplay_cell *cells) {
    printf("row %02u:", row);
    for (unsigned first = 0, at = 1; at <= REDPLAY_COLUMNS; at++) {
        if (at < REDPLAY_COLUMNS && cells[at].fore == cells[first].fore && cells[at].back == cells[first].back) continue;
        put_run(cells, first, at);
        first = at;
    }
    putchar('\n');
}

/* The rows that differ from the frame before. */
static void show(redplay *session, unsigned frame) {
    uint64_t rows = 0;
    redplay_cell cells[REDPLAY_COLUMNS] = {{0, 0, 0}};
    redplay_changed(session, &rows);
    printf("frame %u\n", frame);
    for (unsigned row = 0; row < REDPLAY_ROWS; row++) {
        if (!(rows >> row & 1)) continue;
        redplay_cells(session, row, cells, REDPLAY_COLUMNS);
        put_row(row, cells);
    }
}

/* ---- The script ---- */

static uint32_t key_named(const char *name) {
    static const struct { const char *name; uint32_t key; } keys[] = {
        {"up", REDPLAY_KEY_UP}, {"down", REDPLAY_KEY_DOWN}, {"left", REDPLAY_KEY_LEFT}, {"right", REDPLAY_KEY_RIGHT},
        {"select", REDPLAY_KEY_SELECT}, {"cancel", REDPLAY_KEY_CANCEL}, {"red", REDPLAY_KEY_RED},
        {"green", REDPLAY_KEY_GREEN}, {"yellow", REDPLAY_KEY_YELLOW}, {"blue", REDPLAY_KEY_BLUE},
        {"text", REDPLAY_KEY_TEXT},
    };
    if (name[0] >= '0' && name[0] <= '9' && !name[1]) return REDPLAY_KEY_0 + (uint32_t)(name[0] - '0');
    for (size_t at = 0; at < sizeof keys / sizeof keys[0]; at++) {
        if (!strcmp(keys[at].name, name)) return keys[at].key;
    }
    fail("no key is called", name);
    return 0;
}

/* Prints a text of the library; what did not fit into the room is left out. */
static void put_text(const uint8_t *text, size_t length, size_t room) {
    fwrite(text, 1, length < room ? length : room, stdout);
}

/* The lines of the faults from this one on. */
static void put_faults(redplay *session, uint64_t first, uint64_t behind) {
    uint8_t text[1024] = {0};
    size_t length = 0;
    for (uint64_t at = first; at < behind; at++) {
        if (redplay_fault(session, (size_t)at, text, sizeof text, &length)) fail("no memory for", "a fault");
        put_text(text, length, sizeof text);
    }
}

/* Makes steps, and tells the faults that were met, how many steps were made, and what is left to do. */
static void advance(redplay *session, uint32_t most) {
    static const char *const left[] = {"more", "idle", "ended"};
    redplay_totals before = {0, 0, 0}, after = {0, 0, 0};
    redplay_counts(session, &before);
    if (redplay_advance(session, most) == REDPLAY_NO_MEMORY) fail("no memory for", "a step");
    redplay_counts(session, &after);
    put_faults(session, before.faults, after.faults);
    printf("did %" PRIu64 " %s\n", after.taken - before.taken, left[redplay_rest(session)]);
}

/* Tells why a post is refused, if it is. */
static void posted(uint32_t answer) {
    if (answer == REDPLAY_NO_MEMORY) fail("no memory for", "a post");
    if (answer) printf("refused %" PRIu32 "\n", answer);
}

/* The bytes that pairs of hexadecimal digits write, in their place. */
static size_t unhexed(char *digits) {
    size_t count = strlen(digits) / 2;
    for (size_t at = 0; at < count; at++) {
        char pair[3] = {digits[2 * at], digits[2 * at + 1], 0}, *end;
        digits[at] = (char)strtoul(pair, &end, 16);
        if (*end) fail("no hexadecimal digits:", pair);
    }
    return count;
}

/* A content file arrives, or the file of a scene: that of the folder where no bytes are given. */
static void arrive(redplay *session, const folder *all, bool is_scene, char *name) {
    char *digits = strchr(name, ' ');
    if (digits) *digits++ = 0;
    redplay_source file = {(const uint8_t *)name, strlen(name), (const uint8_t *)digits, digits ? unhexed(digits) : 0};
    if (!digits) file = *named(all, name);
    if (is_scene) posted(redplay_scene(session, file.name, file.name_length, file.content, file.content_length));
    else posted(redplay_file(session, file.name, file.name_length, file.content, file.content_length));
}

/* Does a command. */
static void obey(redplay *session, const folder *all, char *line, unsigned *frames) {
    char *rest = strchr(line, ' ');
    if (rest) *rest++ = 0;
    long long number = rest ? atoll(rest) : 0;
    if (!strcmp(line, "run")) advance(session, RUN_LIMIT);
    else if (!strcmp(line, "show")) show(session, ++*frames);
    else if (!rest) fail("no such command:", line);
    else if (!strcmp(line, "step")) advance(session, (uint32_t)number);
    else if (!strcmp(line, "key")) posted(redplay_key(session, key_named(rest)));
    else if (!strcmp(line, "tick")) posted(redplay_tick(session, (uint32_t)number));
    else if (!strcmp(line, "stream")) posted(redplay_stream(session, (int32_t)number));
    else if (!strcmp(line, "engine")) posted(redplay_event(session, (int32_t)number));
    else if (!strcmp(line, "file")) arrive(session, all, false, rest);
    else if (!strcmp(line, "scene")) arrive(session, all, true, rest);
    else fail("no such command:", line);
}

/* Plays a script, and answers the exit status. */
static int play(redplay *session, const folder *all, char *script) {
    redplay_totals totals = {0, 0, 0};
    unsigned frames = 0;
    for (char *line = strtok(script, "\n"); line; line = strtok(NULL, "\n")) {
        if (line[0] != '#') obey(session, all, line, &frames);
    }
    redplay_counts(session, &totals);
    printf("total %" PRIu64 "\n", totals.taken);
    return totals.faults ? 3 : 0;
}

/* ---- The whole ---- */

typedef struct { const char *folder, *script, *start, *late, *sealed; bool lenient; } choices;

static choices chosen(int count, char **words) {
    choices made = {NULL, NULL, "a", NULL, NULL, false};
    for (int at = 1; at < count; at++) {
        if (!strcmp(words[at], "--lenient")) made.lenient = true;
        else if (!strcmp(words[at], "--late") && at + 1 < count) made.late = words[++at];
        else if (!strcmp(words[at], "--sealed") && at + 1 < count) made.sealed = words[++at];
        else if (!made.folder) made.folder = words[at];
        else if (!made.script) made.script = words[at];
        else made.start = words[at];
    }
    if (!made.script) fail("usage:", "player [--late FILE] [--lenient] [--sealed FILE] FOLDER SCRIPT [START], or FOLDER --check [START]");
    return made;
}

/* Prints the verdict on the service, and answers the exit status. */
static int check(const folder *all, const uint8_t *start, const uint8_t *late, size_t late_length) {
    uint8_t text[4096] = {0};
    size_t length = 0;
    uint32_t answer = redplay_check(all->files, all->count, start, strlen((const char *)start), late, late_length,
                                    text, sizeof text, &length);
    if (answer == REDPLAY_NO_MEMORY) fail("no memory for", "a verdict");
    put_text(text, length, sizeof text);
    return answer == REDPLAY_GOOD ? 0 : answer == REDPLAY_UNACCEPTED ? 1 : 2;
}

/* Says why there is no session. */
static void put_why(uint32_t number) {
    uint8_t text[128] = {0};
    size_t length = 0;
    redplay_why(number, text, sizeof text, &length);
    fprintf(stderr, "player: not started: %.*s (%" PRIu32 ")\n", (int)length, (const char *)text, number);
}

/* Plays the script of a session, ends it, and answers the exit status. */
static int play_out(redplay *session, const choices *made, const folder *all) {
    size_t length;
    uint8_t *script = read_whole(made->script, &length);
    int status = play(session, all, (char *)script);
    redplay_free(session);
    free(script);
    return status;
}

/* Plays by a seal, or says why there is no session, and answers the exit status. */
static int start_sealed(const choices *made, const folder *all) {
    size_t length;
    uint8_t *seal = read_whole(made->sealed, &length);
    redplay session = REDPLAY_NONE;
    uint32_t answer = redplay_start_sealed(&session, seal, length, all->files, all->count, 60000);
    free(seal);
    if (answer == REDPLAY_GOOD) return play_out(&session, made, all);
    put_why(answer);
    return 2;
}

/* Plays the script, or says why there is no session, and answers the exit status. */
static int start(const choices *made, const folder *all, const uint8_t *late, size_t late_length) {
    const uint8_t *name = (const uint8_t *)made->start;
    if (!strcmp(made->script, "--check")) return check(all, name, late, late_length);
    redplay session = REDPLAY_NONE;
    uint32_t answer = redplay_start(&session, all->files, all->count, name, strlen(made->start), late, late_length, 60000,
                                    made->lenient);
    if (answer == REDPLAY_GOOD) return play_out(&session, made, all);
    put_why(answer);
    return check(all, name, late, late_length) == 1 ? 1 : 2;
}

int main(int count, char **words) {
    const choices made = chosen(count, words);
    folder all = {NULL, 0, 0};
    gather_all(&all, made.folder);
    if (!all.count) fail("no files in", made.folder);
    size_t late_length = 0;
    uint8_t *late = made.late ? read_whole(made.late, &late_length) : NULL;
    int status = made.sealed ? start_sealed(&made, &all) : start(&made, &all, late, late_length);
    free(late);
    let_go(&all);
    return status;
}

/*
 * redplay.h - the engine and the verifier of redplay for programs in C11, C++17 and whatever calls C.
 *
 * A session plays one service of MHEG-5 (ISO/IEC 13522-5): keys, ticks of the clock, events and files are posted, steps are
 * made when they are asked for, and a picture of 36 rows of 60 cells is there behind each call. Nothing here reads a file,
 * draws, or knows any time but the ticks that it is given. docs/EMBEDDING_C.md shows a whole receiver.
 *
 * Link libredplay.a, as packages have it; or libredplay_c.a, and liblibc_c.a of the Rattle kit behind it. What the archive does is
 * proved against the clauses of crates/redplay_c; this file repeats them in words, and nothing compares the two.
 *
 * WHAT A CALLER OWES. No call can see any of this:
 *   1. A pointer with a length behind it is aligned, and the start of so many bytes, or values, of which nothing else is written
 *      while the call lasts. Where the length is 0 it may be null: (NULL, 0) is an empty piece everywhere, in a file of an array
 *      too.
 *   2. A pointer without a length is aligned, never null, and points to one value of its type that was filled in.
 *   3. What a call writes does not overlap anything else that it is passed, and was filled in before, the room for a text too.
 *   4. A `bool` is 0 or 1.
 *   5. A handle begins as REDPLAY_NONE and is written by these calls alone. It may be moved, but there is never a second
 *      copy of it that is used.
 *   6. A handle is in one call at a time, also where the call takes it as `const`; and no call is made from a signal handler, nor
 *      from the forked child of a process with threads.
 *   7. malloc, realloc and free come from one allocator, which aligns a block to each power of two up to 16 that divides its
 *      size.
 *
 * THREADS. Sessions share nothing: two of them may be in calls on two threads at once. A session may go to another thread between
 * two calls, if a lock, a join or a queue of the program orders the one call before the other. The library starts no thread, takes
 * no lock, and keeps nothing outside of sessions.
 *
 * WHAT EACH CALL ANSWERS. 0, or a number that says why not, of which redplay_why() has the text. Where it is not 0 nothing has
 * changed, in the session or behind a pointer, unless the call says otherwise here. Numbers below 100 are those that `redplay`
 * tells: 1 to 37 of files that cannot be read, 40 to 58 of the engine; docs/PROFILE.md has them all. What is named below is what a
 * program may want to know apart. `const` stands where a call leaves the session as it was.
 *
 * TEXTS. A text is written to room that the caller lends, as much of it as there is place for, and its whole length is told, as
 * snprintf does: where that is more than there was room for, lend more and ask again. No zero byte is put behind it. It is UTF-8
 * where the names of files are.
 *
 * MEMORY. "Takes no memory" means that the call never asks for any. Every other call may answer REDPLAY_NO_MEMORY, has then
 * kept nothing, and may be made again. What a session holds, and how deep the stack goes, docs/EMBEDDING_C.md has in figures.
 *
 * LIMITS. 1,024 content files at once (41), of 65,535 octets each (40); 256 inputs that wait (51); 2^32 milliseconds of ticks,
 * which are 49.7 days (53), behind which a session is freed and another one started. The file of a scene that comes late has to be
 * handed in at the start, too: the verifier wants it.
 *
 * WHAT MAY BE COUNTED ON FROM ONE VERSION TO THE NEXT. REDPLAY_VERSION is the number of this form of the calls, and is another one
 * where a program has to be changed, or has only to be compiled anew: where a call goes, takes something else or means something
 * else, where a struct has other fields or a name another value. Under one number there may come more calls, names, keys and
 * numbers that are answered; so take a number that you do not know as a refusal. Archive and header belong together: a program may
 * see that they do by redplay_version() == REDPLAY_VERSION. REDPLAY_ENGINE_VERSION is the release of redplay, which may play a
 * service otherwise or accept another one where its second number is another (CHANGELOG.md).
 *
 * NAMES. All that is declared here begins with redplay or REDPLAY, and so will all that is to come. Besides these the archive gives
 * the linker rattle_alloc, rattle_realloc and rattle_dealloc, which are the toolchain's.
 *
 * PLATFORMS. Linux on x86-64, of processors that have SSE4.2 (x86-64-v2). Of the C library it wants malloc, realloc and free, and
 * memcpy and its like. A port needs the crate compiled for the other platform, whose addresses have 64 bits, and these functions;
 * files, clock and display are the program's own everywhere.
 */
#ifndef REDPLAY_H
#define REDPLAY_H

#include <stdbool.h>
#include <stddef.h>
#include <stdint.h>

#ifdef __cplusplus
extern "C" {
#endif

/* The form of these calls, which redplay_version() answers for the archive that is linked. */
#define REDPLAY_VERSION 1

/* The version of the engine, 0.2.0, which redplay_engine_version() answers: 10,000 times the first number, 100 times the second,
   and the third. */
#define REDPLAY_ENGINE_VERSION 200

/* The picture. A cell is 12 units wide and 16 high, of the 720 by 576 units of the standard's screen. */
enum { REDPLAY_ROWS = 36, REDPLAY_COLUMNS = 60, REDPLAY_CELLS = 2160 };

/* What a call answers. */
enum {
    REDPLAY_GOOD = 0,

    REDPLAY_FILE_TOO_LARGE = 40,  /* a content file has more than 65,535 octets */
    REDPLAY_TOO_MANY_FILES = 41,  /* with the names that wait, there would be more than 1,024 content files */
    REDPLAY_QUEUE_FULL = 51,      /* 256 inputs wait: make steps, and post again */
    REDPLAY_HAS_ENDED = 52,       /* the application has quit: nothing changes any more */
    REDPLAY_CLOCK_FULL = 53,      /* with the ticks that wait, the present would be past 4,294,967,295 milliseconds: start anew */
    REDPLAY_TICK_RANGE = 54,      /* a tick is not of 1 to 60,000 milliseconds */
    REDPLAY_NOT_LATE = 57,        /* no file of this scene is awaited: it was not named as late, or it was posted already */
    REDPLAY_SCENE_DIFFERS = 58,   /* the scene is another one than that of the service */

    REDPLAY_NO_SEAL = 70,         /* the bytes are no seal */
    REDPLAY_OTHER_SEAL = 71,      /* the seal is of another version of its notation */
    REDPLAY_NOT_HERE = 72,        /* the file of a group is not there that the seal tells to be here from the start */
    REDPLAY_OTHER_TAGS = 73,      /* the seal tells of a file of tags, and the library has those of the profile alone */

    REDPLAY_NO_MEMORY = 100,      /* memory was refused */
    REDPLAY_NO_SESSION = 101,     /* the handle has no session: it was not started, or it was freed */
    REDPLAY_UNACCEPTED = 102,     /* the verifier does not accept the service */
    REDPLAY_NO_KEY = 104,         /* no key has the number */
    REDPLAY_NO_PATH = 105,        /* the name of a file is no path */
    REDPLAY_IN_USE = 106,         /* the handle has a session already: free it first */
    REDPLAY_OUT_OF_RANGE = 107    /* there is no such row, fault, day or number */
};

/* What redplay_rest() answers. */
enum { REDPLAY_MORE = 0, REDPLAY_IDLE = 1, REDPLAY_ENDED = 2 };

/* Keys of the remote control. */
enum {
    REDPLAY_KEY_UP = 1, REDPLAY_KEY_DOWN = 2, REDPLAY_KEY_LEFT = 3, REDPLAY_KEY_RIGHT = 4,
    REDPLAY_KEY_0 = 5, /* and so on: the digit d is REDPLAY_KEY_0 + d */
    REDPLAY_KEY_SELECT = 15, REDPLAY_KEY_CANCEL = 16,
    REDPLAY_KEY_RED = 100, REDPLAY_KEY_GREEN = 101, REDPLAY_KEY_YELLOW = 102, REDPLAY_KEY_BLUE = 103,
    REDPLAY_KEY_TEXT = 104
};

/* A session, or none. The address is the library's: look at nothing behind it. */
typedef struct redplay { void *at; } redplay;
#define REDPLAY_NONE { NULL }

/* A file: its path in the folder of the service, with single slashes and none in front, and its bytes. Both are the
   caller's, and are looked at during the call alone. */
typedef struct redplay_source {
    const uint8_t *name;
    size_t name_length;
    const uint8_t *content;
    size_t content_length;
} redplay_source;

/* How many steps were taken; how many may be taken for what was posted so far, which is never fewer; how many faults were
   met. Of a service that is played leniently nothing is known: its budget is the largest number of 64 bits. */
typedef struct redplay_totals {
    uint64_t taken, budget, faults;
} redplay_totals;

/* To how many steps the start and one input of each kind lead at most: a key, a tick, an event of a stream or of the engine, a
   content file or a scene that arrives. Of a service that is played leniently each is the largest number of 64 bits. */
typedef struct redplay_limits {
    uint64_t start, key, tick, stream, engine, arrive;
} redplay_limits;

/* A cell: its character, a code point of Unicode, a space (32) where there is none; the colour of the character; the colour
   behind it. Colours are 24 bits, red in the highest eight, then green, then blue. */
typedef struct redplay_cell {
    uint32_t scalar, fore, back;
} redplay_cell;

/* ---- The library ---------------------------------------------------------------------------------------------------------- */

/* Answers REDPLAY_VERSION of the archive. Takes no memory. */
uint32_t redplay_version(void);

/* Answers REDPLAY_ENGINE_VERSION of the archive. Takes no memory. */
uint32_t redplay_engine_version(void);

/* Writes what a number means that a call answers, in words of English without a point behind them, 0 too; REDPLAY_OUT_OF_RANGE
   where none answers it. 128 bytes are enough. Takes no memory. */
uint32_t redplay_why(uint32_t number, uint8_t *text, size_t text_length, size_t *length);

/* ---- A service ----------------------------------------------------------------------------------------------------------

   A service is the files of a folder, in any order. One that begins as a group does is a group, in text or in the binary
   notation with the profile's tags; every other one is content. `start` is the path of the application to start with. `late` has
   the paths of the scenes whose files come later, a path a line; with the length 0 none does. The files of these scenes are
   handed in with the others, since the verifier wants them: that they are late says when the service may show them. */

/* Writes what `redplay check` prints of the service: `accepted` and its six bounds, or why it is refused and where, or why a
   file cannot be read and at which byte. The text and its length are written where the answer is 0 (accepted),
   REDPLAY_UNACCEPTED, or a number from 1 to 37 (the files make no service); nothing where it is REDPLAY_NO_PATH or
   REDPLAY_NO_MEMORY. To lend more room and ask again costs another verdict; 4,096 bytes are mostly enough. */
uint32_t redplay_check(const redplay_source *files, size_t files_length, const uint8_t *start, size_t start_length,
                       const uint8_t *late, size_t late_length, uint8_t *text, size_t text_length, size_t *length);

/* ---- A session ---------------------------------------------------------------------------------------------------------- */

/* Starts a session of the service on a modified Julian day, 1,000,000 at most, in a handle that has none. The content files that
   the service names are there from the start; the picture that redplay_changed() compares with is black. No step is made yet.
   Unless `lenient`, the verifier has to accept the service, and then no action of it is ever at fault, and no more steps are
   ever taken than redplay_counts() has as the budget. Leniently, an action that cannot be done is skipped and noted.
   What it answers, the first of these that applies, want of memory aside: REDPLAY_IN_USE; REDPLAY_OUT_OF_RANGE for the day;
   REDPLAY_NO_PATH; 1 to 37, the files make no service; REDPLAY_UNACCEPTED; REDPLAY_FILE_TOO_LARGE and REDPLAY_TOO_MANY_FILES, of
   the content files that the service names. */
uint32_t redplay_start(redplay *handle, const redplay_source *files, size_t files_length, const uint8_t *start,
                       size_t start_length, const uint8_t *late, size_t late_length, uint32_t day, bool lenient);

/* Starts a session by the seal of a service (the text that `redplay seal` prints), with the files that are there: those of the
   groups which the seal tells to be here from the start have to be among them, and the content files that it names may be; of
   other files nothing is looked at. Late scenes are brought by redplay_scene() when they are there, and no verifier is asked. The
   seal is believed: by that of an accepted service the session meets no fault, takes no more steps than redplay_counts() has as
   the budget, and shows what the whole service shows, unless two groups have one digest (SHA-256). By a wrong one it stays safe:
   an action that cannot be done is skipped and noted, and bounds and budget say nothing, so let a turn make so many steps at most.
   Who signs a seal, and how, is the broadcaster's: it is signed as a text, of which a seal has exactly one.
   What it answers, the first of these that applies, want of memory aside: REDPLAY_IN_USE; REDPLAY_OUT_OF_RANGE for the day;
   REDPLAY_NO_SEAL, REDPLAY_OTHER_SEAL; REDPLAY_NO_PATH; REDPLAY_OTHER_TAGS; 1 to 24, the file of a group that is here cannot be
   read; REDPLAY_NOT_HERE and REDPLAY_SCENE_DIFFERS, the file of such a group is not there or is not the sealed one; 30 to 35, the
   groups make no service; REDPLAY_FILE_TOO_LARGE and REDPLAY_TOO_MANY_FILES, of the content files. */
uint32_t redplay_start_sealed(redplay *handle, const uint8_t *seal, size_t seal_length, const redplay_source *files,
                              size_t files_length, uint32_t day);

/* Writes the bounds of the service that is played. Takes no memory. */
uint32_t redplay_bounds(const redplay *handle, redplay_limits *limits);

/* Ends the session and gives all its memory back; the handle has none behind it. Takes no memory. */
uint32_t redplay_free(redplay *handle);

/* ---- What comes from outside --------------------------------------------------------------------------------------------
   A post waits in the queue until steps are made. It adds the bound of its kind to the budget. */

/* A key was pressed: one of REDPLAY_KEY_..; REDPLAY_NO_KEY, 51, 52. */
uint32_t redplay_key(redplay *handle, uint32_t key);

/* So many milliseconds passed, 1 to 60,000: 51 to 54. */
uint32_t redplay_tick(redplay *handle, uint32_t milliseconds);

/* A stream event with this tag (ISO/IEC 13522-5, StreamEvent): 51, 52. */
uint32_t redplay_stream(redplay *handle, int32_t tag);

/* An event of the engine with this number (ISO/IEC 13522-5, EngineEvent): 51, 52. */
uint32_t redplay_event(redplay *handle, int32_t number);

/* A content file is there, in the place of an older one of its name: REDPLAY_NO_PATH, 52, 40, 41, 51. Any file may arrive, also
   one that the service does not name. */
uint32_t redplay_file(redplay *handle, const uint8_t *name, size_t name_length, const uint8_t *content, size_t content_length);

/* The file of a late scene is there, in either notation: REDPLAY_NO_PATH; 1 to 24, it cannot be read; 52, 57, 58, 51. It has to
   be the scene that the session was started with, white space and notation aside; by a seal the one of which the seal has the
   digest. */
uint32_t redplay_scene(redplay *handle, const uint8_t *name, size_t name_length, const uint8_t *content, size_t content_length);

/* ---- Steps, and what comes of them -------------------------------------------------------------------------------------- */

/* Makes `most` steps, or as many as there is something to do; what they change is painted where rows or cells are asked for.
   Of a service that the verifier accepted, UINT32_MAX always comes to an end, within the budget. Behind REDPLAY_NO_MEMORY
   some of the steps were made and there is more to do: call it again. */
uint32_t redplay_advance(redplay *handle, uint32_t most);

/* Answers what is left to do: REDPLAY_MORE, REDPLAY_IDLE (post something), REDPLAY_ENDED; or REDPLAY_NO_SESSION. Takes no
   memory. */
uint32_t redplay_rest(const redplay *handle);

/* Writes the counts. Takes no memory. */
uint32_t redplay_counts(const redplay *handle, redplay_totals *totals);

/* Writes the line that `redplay play` prints of a fault, with its line feed: what is wrong (`absent`, `class`, `kind`), the
   action, and the reference that is wrong. The first fault is 0, the last one redplay_counts()'s `faults` less 1;
   REDPLAY_OUT_OF_RANGE where there are fewer. A service that the verifier accepted has none. */
uint32_t redplay_fault(const redplay *handle, size_t at, uint8_t *text, size_t text_length, size_t *length);

/* Writes what is waited for, a line each with a line feed behind it: first `scene NAME`, if a transition waits for the file of that
   late scene, then `file NAME` for each content file that an object waits for. Let the filter of a carousel fetch these first. The
   length is 0 where nothing is; where it is larger than the room, lend more and ask again. */
uint32_t redplay_awaited(const redplay *handle, uint8_t *text, size_t text_length, size_t *length);

/* Writes which rows differ from the picture of the last call, a bit a row, the top row the lowest; the picture that is shown
   now is what the next call compares with. Takes no memory. */
uint32_t redplay_changed(redplay *handle, uint64_t *rows);

/* Copies cells from the beginning of this row on, 0 the top row, as many as there are places for; 60 a row.
   REDPLAY_OUT_OF_RANGE where the picture has fewer. Takes no memory. */
uint32_t redplay_cells(const redplay *handle, size_t row, redplay_cell *cells, size_t cells_length);

#ifdef __cplusplus
}
#endif
#endif

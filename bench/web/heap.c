/*
 * What the archive asks of its machine, for WebAssembly with addresses of 64 bits: memory, and some arithmetic of the compiler.
 *
 * Blocks have a power of two of bytes, of which the first 16 say which one; a block that is given back waits in the list of its
 * size. Memory grows by pages and never shrinks. Nothing here is proved.
 */
typedef unsigned long size;
typedef unsigned long word;

enum { PAGE = 65536, HEAD = 16, CLASSES = 48 };

typedef struct block { size class; struct block *next; } block;

/* An answer: whether there is memory, and where. */
typedef struct { word there; word at; } answer;

extern unsigned char __heap_base;
static word top;
static block *waiting[CLASSES];

void *memcpy(void *to, const void *from, size count) {
    unsigned char *write = to;
    const unsigned char *read = from;
    while (count--) *write++ = *read++;
    return to;
}

void *memmove(void *to, const void *from, size count) {
    unsigned char *write = to;
    const unsigned char *read = from;
    if (write <= read) return memcpy(to, from, count);
    while (count--) write[count] = read[count];
    return to;
}

void *memset(void *to, int byte, size count) {
    unsigned char *write = to;
    while (count--) *write++ = (unsigned char)byte;
    return to;
}

int memcmp(const void *one, const void *other, size count) {
    const unsigned char *a = one, *b = other;
    for (; count--; a++, b++) {
        if (*a != *b) return *a < *b ? -1 : 1;
    }
    return 0;
}

static size class_of(size bytes) {
    size class = 5;
    while (class < CLASSES && ((size)1 << class) < bytes) class++;
    return class;
}

/* New memory behind all that there is. */
static block *grown(size class) {
    if (!top) top = ((word)&__heap_base + HEAD - 1) / HEAD * HEAD;
    word end = top + ((size)1 << class), had = __builtin_wasm_memory_size(0) * PAGE;
    if (end > had && __builtin_wasm_memory_grow(0, (end - had + PAGE - 1) / PAGE) == (size)-1) return 0;
    block *made = (block *)top;
    top = end;
    return made;
}

static void *taken(size bytes) {
    if (bytes > (size)1 << (CLASSES - 2)) return 0;
    size class = class_of(bytes + HEAD);
    block *found = waiting[class];
    if (found) waiting[class] = found->next;
    else found = grown(class);
    if (!found) return 0;
    found->class = class;
    return (unsigned char *)found + HEAD;
}

static answer told(void *at) {
    answer made = {at != 0, at ? (word)at : HEAD};
    return made;
}

answer rattle_alloc(size bytes, size align) {
    return told(align <= HEAD ? taken(bytes ? bytes : 1) : 0);
}

void rattle_dealloc(void *at) {
    block *whole = (block *)((unsigned char *)at - HEAD);
    whole->next = waiting[whole->class];
    waiting[whole->class] = whole;
}

answer rattle_realloc(void *at, size old, size bytes, size align) {
    block *whole = (block *)((unsigned char *)at - HEAD);
    if (bytes + HEAD <= (size)1 << whole->class) return told(at);
    answer made = rattle_alloc(bytes, align);
    if (!made.there) return made;
    memcpy((void *)made.at, at, old < bytes ? old : bytes);
    rattle_dealloc(at);
    return made;
}

/* For the page: room for what is handed in, and its end. */
void *redplay_room(size bytes) {
    return taken(bytes ? bytes : 1);
}

void redplay_leave(void *at) {
    rattle_dealloc(at);
}

/* ---- Numbers of 128 bits ---- */

typedef unsigned __int128 wide;
typedef union { wide all; struct { word low, high; } part; } halves;

wide __multi3(wide one, wide other) {
    halves a, b, made;
    a.all = one;
    b.all = other;
    word a0 = a.part.low & 0xffffffff, a1 = a.part.low >> 32, b0 = b.part.low & 0xffffffff, b1 = b.part.low >> 32;
    word low = a0 * b0, cross = a1 * b0 + (low >> 32), more = a0 * b1 + (cross & 0xffffffff);
    made.part.low = more << 32 | (low & 0xffffffff);
    made.part.high = a1 * b1 + (cross >> 32) + (more >> 32) + a.part.low * b.part.high + a.part.high * b.part.low;
    return made.all;
}

wide __lshrti3(wide all, int by) {
    halves a, made;
    a.all = all;
    if (!by) return all;
    made.part.low = by >= 64 ? a.part.high >> (by - 64) : a.part.low >> by | a.part.high << (64 - by);
    made.part.high = by >= 64 ? 0 : a.part.high >> by;
    return made.all;
}

wide __ashlti3(wide all, int by) {
    halves a, made;
    a.all = all;
    if (!by) return all;
    made.part.high = by >= 64 ? a.part.low << (by - 64) : a.part.high << by | a.part.low >> (64 - by);
    made.part.low = by >= 64 ? 0 : a.part.low << by;
    return made.all;
}

wide __umodti3(wide all, wide by) {
    wide rest = 0;
    for (int at = 127; at >= 0; at--) {
        int spilt = (int)(rest >> 127);
        rest = rest << 1 | (all >> at & 1);
        if (spilt || rest >= by) rest -= by;
    }
    return rest;
}

wide __udivti3(wide all, wide by) {
    wide rest = 0, found = 0;
    for (int at = 127; at >= 0; at--) {
        int spilt = (int)(rest >> 127);
        rest = rest << 1 | (all >> at & 1);
        found <<= 1;
        if (spilt || rest >= by) { rest -= by; found |= 1; }
    }
    return found;
}

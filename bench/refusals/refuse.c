/* Refuses one growth of memory, the REFUSED_GROWTHth of a run, and writes into the file GROWTHS how many there were.
   Linked in front of the kit's `liblibc_c.a` with `--wrap` of both functions; see README.md. */
#include <stdio.h>
#include <stdlib.h>

struct given {
    unsigned long some;
    void *memory;
};

struct given __real_rattle_alloc(size_t size, size_t align);
struct given __real_rattle_realloc(void *memory, size_t before, size_t size, size_t align);

static long growths;

static int is_refused(void)
{
    static long refused = -1;

    if (refused < 0) {
        const char *told = getenv("REFUSED_GROWTH");
        refused = told ? atol(told) : 0;
    }
    growths += 1;
    return growths == refused;
}

struct given __wrap_rattle_alloc(size_t size, size_t align)
{
    struct given none = { 0, NULL };
    return is_refused() ? none : __real_rattle_alloc(size, align);
}

struct given __wrap_rattle_realloc(void *memory, size_t before, size_t size, size_t align)
{
    struct given none = { 0, NULL };
    return before < size && is_refused() ? none : __real_rattle_realloc(memory, before, size, align);
}

__attribute__((destructor)) static void tell(void)
{
    const char *path = getenv("GROWTHS");
    FILE *file = path ? fopen(path, "w") : NULL;

    if (file) {
        fprintf(file, "%ld", growths);
        fclose(file);
    }
}

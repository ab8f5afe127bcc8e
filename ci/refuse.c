/*
 * Replaces the C library's malloc, calloc, realloc and free (by LD_PRELOAD). It makes one chosen allocation fail, and
 * counts blocks and bytes, so that a test can check both. A program that ends and hasn't freed each of its blocks says
 * so, and has the status 3, unless the environment has a variable KEEPS.
 *
 * Each call of one of the first three is an allocation, the growth of a block too. A block that grows counts as one,
 * and its whole new size as requested; an allocation that fails counts in neither. Only one thread may allocate at a
 * time. A test controls this by allocations of marked sizes, which no system can serve: without this library they fail.
 * One that succeeds gets a block of its own, which the test only frees, and which isn't counted.
 *
 *     MARK + n, for an n of 1 to STEP - 1   succeeds. The nth allocation after it fails.
 *     MARK                                  ends that. It fails if an allocation failed since, and succeeds if none
 *                                           did.
 *     MARK + STEP                           succeeds. From here on blocks and requested bytes are counted.
 *     MARK + 2 * STEP                       succeeds if as many blocks were freed as allocated since MARK + STEP.
 *     MARK + 3 * STEP + n                   succeeds if at most n bytes were requested since MARK + STEP.
 *     MARK + 4 * STEP + n                   succeeds if the blocks that were allocated since MARK + STEP and not freed
 *                                           have at most n bytes. The C library makes a block up to 24 bytes larger
 *                                           than requested.
 *     MARK + 5 * STEP + n                   succeeds if these blocks had at most n bytes at each time.
 */
#include <malloc.h>
#include <stdio.h>
#include <stdlib.h>
#include <unistd.h>

/* The C library's own functions, under their second names. */
extern void *__libc_malloc(size_t size);
extern void *__libc_calloc(size_t count, size_t size);
extern void *__libc_realloc(void *block, size_t size);
extern void __libc_free(void *block);

static const size_t MARK = (size_t)1 << 62;
static const size_t STEP = (size_t)1 << 40;

/* The number of allocations up to and with the one that fails; 0: none fails. */
static size_t allocations_left = 0;
static int has_failed = 0;

/* Blocks allocated less those freed, since the program began, and how many these were when counting began. */
static long left = 0, left_before = 0;

/* The bytes of such blocks now and at most, and bytes requested, since they are counted. */
static long held = 0, most_held = 0;
static size_t requested = 0;

/* What a marked allocation gets. */
static char granted;

/* Whether this allocation is the one that fails. */
static int fails(void) {
    if (allocations_left == 0 || --allocations_left > 0)
        return 0;
    has_failed = 1;
    return 1;
}

/* Whether an allocation of the marked size MARK + kind * STEP + n succeeds. */
static int is_granted(size_t kind, size_t n) {
    int is_failure = n == 0 && has_failed;

    switch (kind) {
    case 0:
        allocations_left = n;
        has_failed = 0;
        return !is_failure;
    case 1:
        left_before = left;
        held = most_held = 0;
        requested = 0;
        return 1;
    case 2: return left == left_before;
    case 3: return requested <= n;
    case 4: return held <= (long)n;
    default: return most_held <= (long)n;
    }
}

/* Counts an allocation of this block. */
static void *counted(void *block, size_t size, int is_new) {
    if (block == NULL)
        return NULL;
    left += is_new;
    held += (long)malloc_usable_size(block);
    most_held = most_held < held ? held : most_held;
    requested += size;
    return block;
}

void *malloc(size_t size) {
    if (size >= MARK && size - MARK < 6 * STEP)
        return is_granted((size - MARK) / STEP, (size - MARK) % STEP) ? &granted : NULL;
    return fails() ? NULL : counted(__libc_malloc(size), size, 1);
}

void *calloc(size_t count, size_t size) {
    return fails() ? NULL : counted(__libc_calloc(count, size), count * size, 1);
}

void *realloc(void *block, size_t size) {
    size_t before = malloc_usable_size(block);
    void *grown = fails() ? NULL : __libc_realloc(block, size);

    held -= grown != NULL ? (long)before : 0;
    return counted(grown, size, block == NULL);
}

void free(void *block) {
    if (block == NULL || block == &granted)
        return;
    left--;
    held -= (long)malloc_usable_size(block);
    __libc_free(block);
}

__attribute__((destructor)) static void expect_all_freed(void) {
    if (left == 0 || getenv("KEEPS") != NULL)
        return;
    dprintf(STDERR_FILENO, "ci/refuse.c: %ld blocks weren't freed\n", left);
    _exit(3);
}

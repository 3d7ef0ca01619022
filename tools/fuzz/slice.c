/* The fences are poisoned too, so that code that is built with ASan is caught at once; any other code is caught by the comparison. */
#include "slice.h"
#include <sanitizer/asan_interface.h>
#include <stdio.h>
#include <stdlib.h>
#include <string.h>
#include <sys/mman.h>
#include <unistd.h>

enum { FENCE = 64 };

int only_place = -1;

struct pages {
    uint8_t *start, *end;
};

static struct pages pages_of[ROLES];

static struct pages guarded_pages(size_t size)
{
    size_t page = (size_t)sysconf(_SC_PAGESIZE);
    size_t inner = (size + page - 1) / page * page;
    uint8_t *outer = mmap(NULL, inner + 2 * page, PROT_NONE, MAP_PRIVATE | MAP_ANONYMOUS, -1, 0);
    if (outer == MAP_FAILED || mprotect(outer + page, inner, PROT_READ | PROT_WRITE) != 0) {
        perror("fuzz: mmap");
        exit(2);
    }
    return (struct pages){outer + page, outer + page + inner};
}

void map_pages(void)
{
    for (int role = 0; role < ROLES; role++)
        pages_of[role] = guarded_pages(LARGEST_SLICE + 2 * FENCE);
}

enum place some_place(struct random *random)
{
    return only_place < 0 ? (enum place)random_below(random, PLACES) : (enum place)only_place;
}

static uint8_t *place_in_pages(const struct pages *pages, enum place place, size_t size)
{
    if (place == BEFORE_GUARD)
        return pages->end - size;
    return place == BEHIND_GUARD ? pages->start : pages->start + FENCE;
}

/* Not instrumented, for it looks where nobody may. */
__attribute__((no_sanitize("address"), noinline)) static bool is_filled(const volatile uint8_t *from, uint8_t with)
{
    bool filled = true;
    for (int i = 0; i < FENCE; i++)
        filled &= from[i] == with;
    return filled;
}

static bool has_fence_before(const struct slice *slice)
{
    return slice->place == FENCED || slice->place == BEFORE_GUARD;
}

static bool has_fence_behind(const struct slice *slice)
{
    return slice->place == FENCED || slice->place == BEHIND_GUARD;
}

static void put_fence(uint8_t *from, uint8_t with)
{
    for (int i = 0; i < FENCE; i++)
        from[i] = with;
    ASAN_POISON_MEMORY_REGION(from, FENCE);
}

struct slice new_slice(enum role role, enum place place, size_t size, uint8_t fence)
{
    struct slice slice = {NULL, size, role, place, fence};
    if (place != EXACT)
        slice.at = place_in_pages(&pages_of[role], place, size);
    else if (size > 0)
        slice.at = malloc(size);
    if (has_fence_before(&slice))
        put_fence(slice.at - FENCE, fence);
    if (has_fence_behind(&slice))
        put_fence(slice.at + size, fence);
    return slice;
}

struct slice copy_of(struct random *random, enum role role, const void *from, size_t size)
{
    struct slice slice = new_slice(role, some_place(random), size, (uint8_t)random_next(random));
    if (size > 0)
        memcpy(slice.at, from, size);
    return slice;
}

bool is_fence_whole(const struct slice *slice)
{
    return (!has_fence_before(slice) || is_filled(slice->at - FENCE, slice->fence)) &&
           (!has_fence_behind(slice) || is_filled(slice->at + slice->size, slice->fence));
}

void free_slice(struct slice *slice)
{
    if (has_fence_before(slice))
        ASAN_UNPOISON_MEMORY_REGION(slice->at - FENCE, FENCE);
    if (has_fence_behind(slice))
        ASAN_UNPOISON_MEMORY_REGION(slice->at + slice->size, FENCE);
    if (slice->place == EXACT)
        free(slice->at);
    slice->at = NULL;
}

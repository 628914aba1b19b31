#define _DEFAULT_SOURCE
#include "space.h"

#include <sys/mman.h>
#include <unistd.h>

#include "requests.h"

uint8_t *make_space(size_t size)
{
    size_t page = (size_t)sysconf(_SC_PAGESIZE);
    uint8_t *all = mmap(NULL, size + 2 * page, PROT_NONE, MAP_PRIVATE | MAP_ANONYMOUS, -1, 0);

    REQUIRE(all != MAP_FAILED && size % page == 0, "no memory");
    REQUIRE(mprotect(all + page, size, PROT_READ | PROT_WRITE) == 0, "no pages");
    return all + page;
}

void guarded_make(struct guarded *g, size_t size)
{
    g->space = make_space(size);
    g->size = size;
    g->before = malloc(size);
    REQUIRE(g->before != NULL, "no memory");
}

void lend(struct guarded *g, const uint8_t *octets, size_t length, int back)
{
    REQUIRE(length <= g->size, "over %zu octets", g->size);
    g->octets = back ? g->space + g->size - length : g->space;
    g->length = length;
    memcpy(g->octets, octets, length);
    memcpy(g->before, octets, length);
}

int kept_part(const struct guarded *g, size_t from, size_t end)
{
    return memcmp(g->octets + from, g->before + from, end - from) == 0;
}

int kept(const struct guarded *g, size_t from)
{
    return kept_part(g, from, g->length);
}

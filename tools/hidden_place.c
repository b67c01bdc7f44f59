/* Which place of a copy of a program answers want of memory, for tools/hidden-refusals.
 *
 * It is linked to the copy. The place with the number in HIDDEN_PLACE is the chosen one (0, or no such word: none). Where
 * HIDDEN_REACHED names a file, its byte at the number of each place that is reached becomes 1. It is there before the
 * program begins, long enough for each number, and has them at each moment. */
#include <fcntl.h>
#include <stdbool.h>
#include <stddef.h>
#include <stdint.h>
#include <stdlib.h>
#include <sys/mman.h>
#include <unistd.h>

static uint32_t chosen;
static volatile unsigned char *reached;
static size_t most;
static _Alignas(64) unsigned char room[1 << 20]; /* what is forgotten is put here, and never read */

__attribute__((constructor)) static void begin(void)
{
    const char *place = getenv("HIDDEN_PLACE"), *path = getenv("HIDDEN_REACHED");
    if (place)
        chosen = (uint32_t)strtoul(place, NULL, 10);
    if (path == NULL)
        return;
    int file = open(path, O_RDWR | O_CLOEXEC);
    off_t size = file < 0 ? 0 : lseek(file, 0, SEEK_END);
    void *at = size > 0 ? mmap(NULL, (size_t)size, PROT_READ | PROT_WRITE, MAP_SHARED, file, 0) : MAP_FAILED;
    if (at == MAP_FAILED)
        _exit(70);
    close(file);
    reached = at;
    most = (size_t)size;
}

bool hidden_place_is(uint32_t place)
{
    if (reached != NULL && place < most)
        reached[place] = 1;
    return place == chosen;
}

void *hidden_place_room(size_t size)
{
    if (size > sizeof room)
        abort();
    return room;
}

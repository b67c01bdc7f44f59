/*
 * What a module for the web needs beside the proved code: the three functions of the kit's heap, and a product of 128 bits.
 * No proof covers this file. It stands in for the kit's C library, which calls malloc, realloc and free.
 *
 * Memory is taken from the host in steps and never given back to it. A block has 16 bytes before it that say its class; a
 * block that is freed goes into the list of its class, and the next request of that class takes it.
 *
 * The host may learn that a long call is still at work: each 4,096 requests call its function `tick`. And it may look at one
 * block while the call fills it: the next request of just so many bytes as heap_watch names is answered by zeros, and
 * heap_watched tells where they are.
 */
typedef __SIZE_TYPE__ size_t;

/* What the proved code is given: whether there is memory, and where. */
struct tried {
    unsigned char ok;
    void *at;
};

enum { HEAD = 16, CLASSES = 3 + 4 * 40, PAGE = 65536, STEP = 4, BETWEEN_TICKS = 4096 };

struct block {
    size_t class;
    struct block *next;
};

_Static_assert(sizeof(struct block) == HEAD, "a block's head has 16 bytes");

extern unsigned char __heap_base;
__attribute__((import_module("host"), import_name("tick"))) void tick(void);

static struct block *freed[CLASSES];
static size_t at, end, requests, watched_len, most = (size_t)1 << 40;
static void *watched;
static unsigned char nothing;

/* How many bytes a block of a class holds: 16, 32 and 48, and from 64 on four sizes up to each power of two. */
static size_t size_of(size_t class)
{
    return class < 3 ? 16 * (class + 1) : ((size_t)16 << (class - 3) / 4) * (4 + (class - 3) % 4);
}

/* The class of the smallest block that holds so many bytes, which are at most 2^40. */
static size_t class_of(size_t len)
{
    if (len <= 48)
        return len <= 16 ? 0 : (len - 1) / 16;
    if (len <= 64)
        return 3;
    int top = 63 - __builtin_clzl(len - 1);
    size_t quarter = (size_t)1 << (top - 2);
    return 3 + 4 * (size_t)(top - 6) + (len - ((size_t)1 << top) + quarter - 1) / quarter;
}

/* Takes memory from the host, so that so many bytes are there behind `at`. */
static int grow(size_t len)
{
    size_t pages = (len - (end - at) + PAGE - 1) / PAGE;
    if (pages < STEP)
        pages = STEP;
    if (end + pages * PAGE > most || __builtin_wasm_memory_grow(0, pages) == (size_t)-1)
        return 0;
    end += pages * PAGE;
    return 1;
}

/* A block of so many bytes, on an address that 16 divides; 0 where there is no memory. */
void *heap_take(size_t len)
{
    if (len > (size_t)1 << 40)
        return 0;
    if (end == 0) {
        at = ((size_t)&__heap_base + HEAD - 1) / HEAD * HEAD;
        end = __builtin_wasm_memory_size(0) * PAGE;
    }
    size_t class = class_of(len);
    struct block *block = freed[class];
    if (block)
        freed[class] = block->next;
    else {
        size_t whole = HEAD + size_of(class);
        if (end - at < whole && !grow(whole))
            return 0;
        block = (struct block *)at;
        at += whole;
        block->class = class;
    }
    return (char *)block + HEAD;
}

/* Gives a block back. */
void heap_give(void *p)
{
    struct block *block = (struct block *)((char *)p - HEAD);
    block->next = freed[block->class];
    freed[block->class] = block;
}

/* From here on, the host is asked for no memory beyond so many bytes in all. */
void heap_limit(size_t bytes)
{
    most = bytes;
}

/* The next request of so many bytes is to be watched. */
void heap_watch(size_t len)
{
    watched_len = len;
    watched = 0;
}

/* Where the watched block is; 0 before it is asked for. It is open to a look during the call alone. */
void *heap_watched(void)
{
    return watched;
}

/* Answers a request, and says so where it is one of many, or the one that is watched. */
static struct tried answered(void *p, size_t len)
{
    if (++requests % BETWEEN_TICKS == 0)
        tick();
    if (p && watched_len && len == watched_len) {
        __builtin_memset(p, 0, len);
        watched = p;
        watched_len = 0;
    }
    return (struct tried){p != 0, p ? p : &nothing};
}

/* A block of n bytes; of as many as its alignment where n is 0. */
struct tried rattle_alloc(size_t n, size_t alignment)
{
    return answered(heap_take(n ? n : alignment), n);
}

/* A block of n bytes whose first bytes are the first `kept` of p, which is freed then. Where there is no memory p stays. */
struct tried rattle_realloc(unsigned char *p, size_t kept, size_t n, size_t alignment)
{
    size_t len = n ? n : alignment;
    if (len <= size_of(((struct block *)(p - HEAD))->class))
        return answered(p, 0);
    void *grown = heap_take(len);
    if (grown) {
        __builtin_memcpy(grown, p, kept);
        heap_give(p);
    }
    return answered(grown, 0);
}

void rattle_dealloc(unsigned char *p)
{
    heap_give(p);
}

/* The product of two numbers of 128 bits, which the compiler calls where a product of 64 bits is wanted whole. */
__int128 __multi3(__int128 a, __int128 b)
{
    typedef unsigned long long u64;
    u64 x = (u64)a, y = (u64)b, low = 0xffffffff;
    u64 first = (x & low) * (y & low), cross = (x >> 32) * (y & low) + (first >> 32);
    u64 other = (x & low) * (y >> 32) + (cross & low);
    u64 high = (x >> 32) * (y >> 32) + (cross >> 32) + (other >> 32) + (u64)(a >> 64) * y + x * (u64)(b >> 64);
    return (__int128)(((unsigned __int128)high << 64) | (other << 32 | (first & low)));
}

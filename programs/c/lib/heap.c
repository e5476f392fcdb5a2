/* malloc over sbrk. Memory is a row of blocks, and each begins with a head of 16 bytes. A block that is freed is joined
   with the free blocks right before and behind it, so no two free blocks are neighbours. A block that is larger than
   what is asked for is cut in two. Free blocks are in lists: one for each power of 2, of blocks that are at least so
   long and less than twice so long. */
#include "user.h"

struct head {
    size_t length; /* bytes of the block, with its head: a multiple of 16, and 1 more where the block is in use */
    size_t before; /* bytes of the block before it, or 0 where there is none */
};

struct block {
    struct head head;
    struct block *next;     /* in the list, while the block is free */
    struct block *previous;
};

enum {
    UNIT = sizeof(struct head),
    LEAST = sizeof(struct block),
    IN_USE = 1,
    LISTS = 64,
};

/* More than this many bytes are never given: sbrk takes an int. */
#define MOST (1UL << 30)

static struct block *lists[LISTS];
static struct head *end_mark; /* behind the last block stands a head alone, in use and of no length */

static struct block *block_at(void *place)
{
    return place;
}

static size_t length_of(const struct block *block)
{
    return block->head.length & ~(size_t)IN_USE;
}

static int is_free(const struct block *block)
{
    return (block->head.length & IN_USE) == 0;
}

static struct block *block_behind(struct block *block)
{
    return block_at((char *)block + length_of(block));
}

static struct block *block_before(struct block *block)
{
    return block_at((char *)block - block->head.before);
}

static int list_of(size_t length)
{
    int list = 0;

    while (length >>= 1)
        list++;
    return list;
}

static void add_to_list(struct block *block)
{
    struct block **first = &lists[list_of(length_of(block))];

    block->next = *first;
    block->previous = NULL;
    if (*first != NULL)
        (*first)->previous = block;
    *first = block;
}

static void take_from_list(struct block *block)
{
    if (block->previous != NULL)
        block->previous->next = block->next;
    else
        lists[list_of(length_of(block))] = block->next;
    if (block->next != NULL)
        block->next->previous = block->previous;
}

/* The block is free and so long, and in no list. */
static void set_free(struct block *block, size_t length)
{
    block->head.length = length;
    block_behind(block)->head.before = length;
}

static void give_back(struct block *block)
{
    struct block *behind = block_behind(block);
    size_t length = length_of(block);

    if (is_free(behind)) {
        take_from_list(behind);
        length += length_of(behind);
    }
    if (block->head.before != 0 && is_free(block_before(block))) {
        block = block_before(block);
        take_from_list(block);
        length += length_of(block);
    }
    set_free(block, length);
    add_to_list(block);
}

/* A free block of at least this length, which is in its list yet, or NULL. */
static struct block *find(size_t length)
{
    for (int list = list_of(length); list < LISTS; list++)
        for (struct block *block = lists[list]; block != NULL; block = block->next)
            if (length_of(block) >= length)
                return block;
    return NULL;
}

/* How many bytes of a block of this length stand at the memory's end already. */
static size_t free_at_end(void)
{
    struct block *last = block_before(block_at(end_mark));

    return is_free(last) ? length_of(last) : 0;
}

/* Lets the memory grow, up to a page's end, so that there is a free block of this length. Answers 0 where it can't. The
   memory may end at any byte, since the program may call sbrk itself; then the row of blocks begins anew. */
static int grow(size_t length)
{
    char *end = sbrk(0);
    int goes_on = end_mark != NULL && end == (char *)(end_mark + 1);
    char *begin = goes_on ? (char *)end_mark : end + (-(uintptr_t)end & (UNIT - 1));
    size_t wanted = goes_on ? length - free_at_end() : length;
    uintptr_t new_end = ((uintptr_t)begin + wanted + UNIT + PAGE_BYTES - 1) & -(uintptr_t)PAGE_BYTES;

    if (sbrk(new_end - (uintptr_t)end) == NO_MEMORY)
        return 0;
    struct block *block = block_at(begin);
    if (!goes_on)
        block->head.before = 0;
    end_mark = (struct head *)new_end - 1;
    end_mark->length = IN_USE;
    block->head.length = (char *)end_mark - begin;
    give_back(block);
    return 1;
}

/* What is left behind these first bytes of a free block becomes a block of its own, if it is long enough. */
static void cut(struct block *block, size_t length)
{
    size_t rest = length_of(block) - length;

    if (rest < LEAST)
        return;
    set_free(block, length);
    set_free(block_behind(block), rest);
    add_to_list(block_behind(block));
}

void *malloc(size_t bytes)
{
    size_t length = (bytes + 2 * UNIT - 1) & -(size_t)UNIT;

    if (bytes > MOST - LEAST)
        return NULL;
    if (length < LEAST)
        length = LEAST;
    struct block *block = find(length);
    if (block == NULL && grow(length))
        block = find(length);
    if (block == NULL)
        return NULL;
    take_from_list(block);
    cut(block, length);
    block->head.length |= IN_USE;
    return &block->next;
}

static struct block *block_of(void *bytes)
{
    return block_at((char *)bytes - UNIT);
}

void free(void *bytes)
{
    if (bytes != NULL)
        give_back(block_of(bytes));
}

void *calloc(size_t count, size_t bytes)
{
    void *place = NULL;

    if (bytes == 0 || count <= MOST / bytes)
        place = malloc(count * bytes);
    return place == NULL ? NULL : memset(place, 0, count * bytes);
}

void *realloc(void *bytes, size_t new_bytes)
{
    if (bytes == NULL)
        return malloc(new_bytes);
    size_t room = length_of(block_of(bytes)) - UNIT;
    if (new_bytes <= room)
        return bytes;
    void *place = malloc(new_bytes);
    if (place != NULL) {
        memcpy(place, bytes, room);
        free(bytes);
    }
    return place;
}

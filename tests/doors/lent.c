/* Memory for one case. A piece lies in pages of its own, with a page on each side that cannot be touched. What is looked at lies at the end of its
 * pages, so that the byte after it cannot be touched; what is written lies at their front, and the rest of them is guards. */
#define _DEFAULT_SOURCE
#include <stdio.h>
#include <stdlib.h>
#include <string.h>
#include <sys/mman.h>
#include <unistd.h>

#include "doors.h"

/* A piece: its pages with those at both sides, and its guards (none where it is only looked at). */
typedef struct {
    uint8_t *pages, *guards;
    size_t all, guard_count;
} piece_t;

static piece_t *pieces;
static size_t piece_count, piece_room;

static size_t page_size(void) {
    static size_t size;
    if (size == 0) size = (size_t)sysconf(_SC_PAGESIZE);
    return size;
}

/* Pages for so many bytes, one more at least so that there are guards, and one at each side; gives the first byte that can be touched. */
static uint8_t *new_pages(size_t size, size_t *usable) {
    size_t page = page_size();
    if (size > SIZE_MAX / 2) stop("no memory");
    *usable = (size / page + 1) * page;
    size_t all = *usable + 2 * page;
    uint8_t *pages = mmap(NULL, all, PROT_NONE, MAP_PRIVATE | MAP_ANONYMOUS, -1, 0);
    if (pages == MAP_FAILED || mprotect(pages + page, *usable, PROT_READ | PROT_WRITE) != 0) stop("no memory");
    if (piece_count == piece_room) {
        piece_room = 2 * piece_room + 16;
        pieces = realloc(pieces, piece_room * sizeof *pieces);
        if (pieces == NULL) stop("no memory");
    }
    pieces[piece_count++] = (piece_t){pages, NULL, all, 0};
    return pages + page;
}

const void *shown(const void *bytes, size_t size) {
    size_t usable;
    uint8_t *first = new_pages(size, &usable);
    uint8_t *copy = first + usable - size;
    if (size > 0) memcpy(copy, bytes, size);
    if (mprotect(first, usable, PROT_READ) != 0) stop("pages cannot be shut");
    return copy;
}

bytes_t shown_bytes(bytes_t bytes) { return (bytes_t){shown(bytes.bytes, bytes.length), bytes.length, 0}; }

/* What the k-th guard holds. */
static uint8_t guard_at(size_t k) { return (uint8_t)(0xa5 ^ k * 37); }

/* So many bytes to be written, and guards after them. */
static void *lent(size_t count, size_t width) {
    size_t usable;
    if (count > SIZE_MAX / 4 / width) stop("no memory");
    uint8_t *first = new_pages(count * width, &usable);
    piece_t *piece = &pieces[piece_count - 1];
    piece->guards = first + count * width;
    piece->guard_count = usable - count * width;
    for (size_t i = 0; i < piece->guard_count; i++) piece->guards[i] = guard_at(i);
    return first;
}

uint64_t *lent_numbers(size_t count, uint64_t mark) {
    uint64_t *list = lent(count, sizeof *list);
    for (size_t i = 0; i < count; i++) list[i] = mark;
    return list;
}

int64_t *lent_signed(size_t count, int64_t mark) {
    int64_t *list = lent(count, sizeof *list);
    for (size_t i = 0; i < count; i++) list[i] = mark;
    return list;
}

uint8_t *lent_bytes(size_t count, uint8_t mark) {
    uint8_t *list = lent(count, sizeof *list);
    memset(list, mark, count);
    return list;
}

bool numbers_kept(const uint64_t *list, size_t from, size_t count) {
    for (size_t i = from; i < count; i++)
        if (list[i] != NUMBER_MARK) return false;
    return true;
}

static bool guards_kept(piece_t piece) {
    for (size_t i = 0; i < piece.guard_count; i++)
        if (piece.guards[i] != guard_at(i)) return false;
    return true;
}

void take_back(void) {
    for (size_t i = 0; i < piece_count; i++) {
        check(guards_kept(pieces[i]), "a place past a lent list was changed");
        munmap(pieces[i].pages, pieces[i].all);
    }
    piece_count = 0;
}

lists_t lent_lists(size_t identifiers, size_t exponents, size_t comments, size_t rows) {
    return (lists_t){
        .identifiers = lent_numbers(identifiers, NUMBER_MARK),
        .exponents = lent_numbers(exponents, NUMBER_MARK),
        .comments = lent_bytes(comments, COMMENT_MARK),
        .rows = lent_signed(rows, ROW_MARK),
        .identifier_room = identifiers,
        .exponent_room = exponents,
        .comment_room = comments,
        .row_room = rows,
    };
}

sp3_reading_t read_into(bytes_t file, bool front, lists_t lists) {
    return (front ? sp3_read_front : sp3_read)(file.bytes, file.length, lists.identifiers, lists.identifier_room, lists.exponents,
                                               lists.exponent_room, lists.comments, lists.comment_room, lists.rows, lists.row_room);
}

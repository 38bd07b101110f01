/* pieces.h: in which pages the bytes of a range are, and how many of them there are. crates/view_pieces_c proves these
   two calls, which are part of the C library. They read nothing. License: MIT. */
#ifndef VFS_PIECES_H
#define VFS_PIECES_H
#include <stdint.h>

struct sqr_piece {
    uint64_t page;      /* from 1 */
    uint32_t from, len; /* in bytes: where the piece begins in its page, and how long it is */
};

/* Writes the first piece of a range: its bytes as far as they are in one page. The range begins at byte `at` of a
   database with pages of `size` bytes, and has `len` bytes. Answers 1; or 0 if the range is empty or no page has this
   size, and then leaves the piece as it is. */
uint32_t sqr_first_piece(uint64_t at, uint64_t len, uint32_t size, struct sqr_piece *out);

/* How many bytes of a range are in the first `has` bytes of a database. They are the first ones of the range. */
uint64_t sqr_bytes_there(uint64_t at, uint64_t len, uint64_t has);
#endif

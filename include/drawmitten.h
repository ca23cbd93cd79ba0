/*
 * Drawmitten for C and Rust: truth tables, builds, covers, blocks and patch sheets. Link
 * crates/drawmitten_c/out/libdrawmitten_c.a, which `rt lib` in crates/drawmitten_c proves and writes, for x86-64
 * Linux.
 *
 * THE ANSWER. Every call answers one number of 64 bits. Its low 8 bits are 0 for success, or the number of the refusal
 * (below). The bits above, `answer >> 8`, are the other part of the answer: what it is after success stands at each
 * call. After a refusal it is 0, with two exceptions: a fault in a record of a sheet gives that record's place, counted
 * from 0; a fault of a record being added gives the number of records already there. 2, 5 and 12 always give 0.
 *
 * WHAT THE CALLER GUARANTEES, here and nowhere else. Every pointer is valid for the length given with it, for reading
 * or, where it is not const, for writing too, and is not null even where the length is 0; `fields` is valid for 9 bytes.
 * No buffer that is written overlaps another buffer of the same call: a block found in a sheet is copied out before it
 * is appended to that sheet. During the call no other thread writes to its buffers, or reads one that the call writes.
 * C cuts a number to the parameter's type before the call, and so does Rust's `as`: a caller with wider numbers compares
 * them first. Nothing else is asked. Every length, every byte and every number has an answer, what a buffer for output
 * holds before does not matter, nothing is kept between calls, and every call returns.
 *
 * BUFFERS. A call that writes puts its bytes where it says and changes no other byte. After a refusal no byte is
 * changed.
 *
 * A TABLE of n inputs, n from 0 to 9, has 2^n rows, row 0 in the most significant bit of the first byte: one byte for n
 * up to 3, with zeros after the last row, and 2^(n-3) bytes above. In row r, variable i is bit i of r.
 * A COVER is a text, one `.names` part of BLIF. Its lines end with LF, CR LF or the end of the text; any other CR is a
 * byte of its line, and outside a comment makes the text no cover. `#` starts a comment to the line's end, whatever bytes
 * are in it, a backslash too. Blanks and tabs separate words, and lines without words are skipped. The first line with
 * words has the word `.names`, then names of bytes 33 to 126 without `#` and backslash: those of the inputs, if any, and
 * the output's. Every other line has two words: the marks, a `0`, `1` or `-` for each input, and the output, `0` or `1`;
 * without inputs it has the output alone. A text with anything else is no cover. Input i, counted from 0, is variable i.
 * A line covers the rows that agree with its marks, `-` with either bit. A row is 1 if a line with output 1 covers it, or
 * if there are lines with output 0 and none of them covers it; without lines every row is 0.
 * A BLOCK is ten bytes: nine pin fields of 4 bits (four of F, four of G, the direct pin), each a variable below n or 15
 * for open, then 16 rows of F, 16 of G, 8 of H, row 0 first, then 4 zero bits. Its value is H(F, G, direct pin). In F
 * and G the first pin weighs 8, then 4, 2, 1; in H the output of F weighs 4, that of G 2, the direct pin 1. An open pin
 * reads 1. A block is TIDY if in F, and likewise in G, the carried variables strictly ascend from the first pin with the
 * open pins last, and every row that needs a 0 on an open pin is 0, rows of H with an open direct pin included.
 * A BUILD is requests back to back and nothing else: each is one byte n, 0 to 9, and then as many bytes as a table of n
 * inputs has, and begins wherever the one before it ended. A build of none has length 0. The SLOT of a request is 11
 * bytes: 0 and the ten bytes of the block that matching gives for it, or the number with which matching refuses it, 3
 * or 4, and ten zeros.
 * A RECORD is 14 bytes, most significant bit first: spacecraft number 16 bits, block number 12, n 4, the block.
 * A SHEET is up to 4,681 records (65,534 bytes) and nothing else, strictly ascending by spacecraft number, then block
 * number. An empty one has length 0.
 *
 * REFUSALS
 *    1  n, or the number of a cover's inputs, is above 9
 *    2  a table, a block (not 10 bytes) or a sheet (not a multiple of 14, or above 65,534) has the wrong length; a used
 *       length exceeds its buffer
 *    3  a table's padding is not zero
 *    4  no match: no block computes the table
 *    5  fewer than 10 bytes of room for a block; fewer than the table has, for a table; fewer than 11 for each request,
 *       for a build; fewer than 14 for a record, or 4,681 records already
 *    6  a pin field is neither below n nor 15 (16 and more included)
 *    7  F or G out of order, repeated, or open before carried
 *    8  a row that needs a 0 on an open pin is set
 *    9  the last four bits are not zero
 *   10  spacecraft number 0; of a record being added also a spacecraft number above 65,535 or a block number above 4,095
 *   11  a record's number pair is not above the one before it
 *   12  no record has the number pair, or the place, asked for
 *   13  row number 2^n or more
 *   14  a build has a request with n above 9 (not 1), or whose table runs past the end of the build
 *   15  a text is no cover; a backslash outside a comment makes it none, and so do `.model`, `.end` and a second `.names`
 *   16  a cover uses a name twice, the output's included; names are compared whole, and `EN` and `En` are two
 *   17  a cover has lines with output 1 and lines with output 0
 * Where several apply, the first in the order given at the call is the answer.
 */
#ifndef DRAWMITTEN_H
#define DRAWMITTEN_H

#include <stddef.h>
#include <stdint.h>

#ifdef __cplusplus
extern "C" {
#endif

/* Writes at the start of `out` the table of a cover. After success: n is `(answer >> 8) & 255`, and the length in use,
 * the table's, is `answer >> 16`. 64 bytes of room are enough for every cover. Refusals: 15, 1, 16, 17, 5. */
uint64_t drawmitten_cover(const uint8_t *text, size_t len, uint8_t *out, size_t room);

/* Writes at the start of `out` the ten bytes of the first tidy block, in byte order, that computes the table.
 * After success: the length in use, 10. Refusals: 1, 2, 3, 5, 4. */
uint64_t drawmitten_match(uint8_t n, const uint8_t *table, size_t len, uint8_t *out, size_t room);

/* Writes at the start of `out` the slots of a build's requests, in their order. A table that matching refuses, with 3 or
 * 4, shows in its own slot and changes no other. After success: the length in use, 11 for each request, its low 56 bits.
 * 11 * (`len` / 2) bytes of room are enough for every build. Refusals, of the whole build: 14, 5. */
uint64_t drawmitten_batch(const uint8_t *requests, size_t len, uint8_t *out, size_t room);

/* Whether the bytes are a tidy block of n inputs. After success: 0. Refusals: 1, 2, 6, 7, 8, 9. */
uint64_t drawmitten_check(uint8_t n, const uint8_t *block, size_t len);

/* The block's value at a row. After success: the bit, 0 or 1. Refusals: those of checking, then 13. */
uint64_t drawmitten_evaluate(uint8_t n, const uint8_t *block, size_t len, uint32_t row);

/* The block's type. After success: the letter, 'A', 'B' or 'C' in ASCII, is `(answer >> 8) & 255`, and the digit, 0 to
 * 4, is `(answer >> 16) & 255`. Refusals: those of checking. */
uint64_t drawmitten_type(uint8_t n, const uint8_t *block, size_t len);

/* Writes at the start of `out` the ten bytes of nine pin fields, one to a byte and in the order of the block, and three
 * tables, row 0 in the most significant bit of each. After success: the length in use, 10. Refusals: 1, 6, 7, 8, 5. */
uint64_t drawmitten_pack(uint8_t n, const uint8_t fields[9], uint16_t f, uint16_t g, uint8_t h, uint8_t *out, size_t room);

/* Checks a sheet. After success: the number of records. Refusals: 2, then record by record 10, 11, 1, 6, 7, 8, 9. */
uint64_t drawmitten_sheet_check(const uint8_t *sheet, size_t len);

/* Writes at the start of `out` the 14 bytes of the record at a place, counted from 0. After success: the length in use,
 * 14. Refusals: those of the sheet, 12, 5. */
uint64_t drawmitten_sheet_read(const uint8_t *sheet, size_t len, uint64_t place, uint8_t *out, size_t room);

/* Finds the record with the number pair. After success: its place; its block begins at byte 14 * place + 4 of the
 * sheet. Refusals: those of the sheet, then 12, also for numbers out of range. */
uint64_t drawmitten_sheet_find(const uint8_t *sheet, size_t len, uint32_t craft, uint32_t block);

/* Adds a record with the block of `len` bytes at `ten` after the first `used` bytes of a buffer of `room` bytes. After
 * success: the length in use, `used` + 14. Refusals: 2 for a used length above `room`, those of the used part as a
 * sheet, then for the new record 10, 11, 1, 2, 6, 7, 8, 9, then 5. A place of `used` / 14 means the new record. */
uint64_t drawmitten_sheet_append(uint8_t *sheet, size_t room, size_t used, uint32_t craft, uint32_t block, uint8_t n,
                                 const uint8_t *ten, size_t len);

#ifdef __cplusplus
}
#endif

#endif

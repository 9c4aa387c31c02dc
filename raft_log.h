/* raft_log.h: log batches in the format of raft-engine, read and written in memory that the caller lends.
 *
 * The functions stand in libraft_log.a (`rt lib` in crates/raft_log), which needs no other library and allocates nothing. Each is proved to
 * answer as document 01 says for all inputs. Nothing proves this header: change it with crates/raft_log/src and
 * compare/raft_log/src/sys.rs, and run compare/test and compare/examples/run.
 *
 * Common to all
 *   - A function that can refuse returns 0, or the number of the first check that failed: see below.
 *   - `answer` is set at each call, all its words; after a refusal they are 0, but for the item and, in a rewrite, the old count. The item
 *     is the refused one's number, 0 where nothing is refused or it is outside items.
 *   - Bytes are lent as a pointer and a length in bytes. Rows are lent as a pointer to 64-bit words and a length in WORDS; what does not
 *     make up a whole row at the end is not looked at and not written.
 *   - After a refusal all lent rows and bytes are as they were. Rows and bytes past the result are never touched.
 *   - No pointer may be null, also where the length is 0, words must be aligned, and what a function writes must overlap nothing else
 *     that it is lent.
 *   - A place is counted from 0, in the bytes that are named. Items are counted from 0. size_t has 64 bits.
 *
 * Rows
 *   item row, 7 words: group, type, and five words by type and kind; those not named are 0 when read and not looked at when written
 *   or asked for a status.
 *                             word 2     word 3        word 4        word 5          word 6
 *     type 1, entries         -          count         first index   -               -           (count 0: first index 0 when
 *                                                                                                 read, not looked at when written)
 *     type 2, command         1 clean    -             -             -               -
 *                             2 compact  index         -             -               -
 *     type 3, key             1 put      key place     key length    content place   content length
 *                             2 delete   key place     key length    -               -
 *     Places are in the body (reading), or in the store (writing, status).
 *   entry row, 3 words: index, offset, length. The offset is in the block's content. An entries item has the next `count` of the entry rows.
 *     Writing uses the lengths alone.
 *   location row, 6 words: queue (0 append, 1 rewrite), file number, block place, block length, entry offset, entry length.
 *
 * Refusal numbers
 *    1 fewer than 16 header bytes                  16 a tail (running total of entry lengths) above 4,294,967,295
 *    2 compression type above 1                    17 an index above 2^64 - 1
 *    3 offset above length                         18 fewer bytes lent than the header's length
 *    4 offset below 16                             19 compressed
 *    5 body, or non-empty block, of 4 bytes or     20 entry total differs from the block's content, or block length from the row's
 *      fewer                                       21 what is lent is too short for the result;
 *    6 checksum wrong                                 after every other check
 *    7 bytes end in or before a number or field,   22 entry total above 2,147,483,647, or body above 4,294,967,295 bytes
 *      or a tenth byte is above 1                  23 a put key begins with "__"
 *    9 more than 256 items                         24 overlap begins after the rewritten count
 *   10 unknown item type                           25 a gate is given and overlap begins before the rewritten count
 *   11 unknown command                             26 location table not well formed, or a queue above 1 in it
 *   12 unknown op                                  27 an incoming row not in the rewrite queue, or indexes past 2^64 - 1
 *   13 a span runs past its bytes, or too few      28 atomic status byte above 2
 *      entry rows
 *   14 more than 1,024 entries
 *   15 a tail below the total before it
 *
 * Which comes first
 *   header          1, 2, 3, 4
 *   batch, read     header, 18, 19, block (5, 6 unless it is empty), body, 20, 21
 *   body, read      5, 6, item count (7, 9), items in order, 21
 *   item, read      group and type (7, 10); command (7, 11); op (7, 12) and spans (7, 13); entries: count (7, 14), first index (7, 17), each
 *                   tail (7, 16, 15)
 *   body, written   9; rows in order (10, 11, 12; entries 14, 13, 17, 16; spans 13, then 23); 22; 21
 *   batch, written  the same, with 20 between 22 and 21
 */
#ifndef RAFT_LOG_H
#define RAFT_LOG_H

#include <stdbool.h>
#include <stddef.h>
#include <stdint.h>

#ifdef __cplusplus
extern "C" {
#endif

#define RAFT_LOG_ITEM_WORDS 7
#define RAFT_LOG_ENTRY_WORDS 3
#define RAFT_LOG_LOCATION_WORDS 6
#define RAFT_LOG_ITEMS_MAX 256
#define RAFT_LOG_ENTRIES_MAX 1024

/* The CRC-32 of IEEE 802.3. */
uint32_t raft_log_crc32(const uint8_t *data, size_t data_len);

/* The number at a place, in any permitted spelling. answer: the number, the place after it. 7. */
uint32_t raft_log_read_number(const uint8_t *data, size_t data_len, size_t at, uint64_t answer[2]);

/* Writes the shortest spelling of a number at a place. answer: the place after it. 21. */
uint32_t raft_log_write_number(uint64_t number, uint8_t *out, size_t out_len, size_t at, uint64_t answer[1]);

/* The header at the start of a batch. answer: offset of the body, length of the batch, compression type. 1 to 4. */
uint32_t raft_log_read_header(const uint8_t *data, size_t data_len, uint64_t answer[3]);

/* What a body holds, under a signature. Its footer, the last four bytes, is the checksum of the bytes before it XOR the signature, lowest
 * byte first. answer: item (of a refusal), items, entries, entry total, place after the last item. */
uint32_t raft_log_check_body(const uint8_t *body, size_t body_len, uint32_t signature, uint64_t answer[5]);

/* Whether each number of a body has its shortest spelling. answer: item (of a refusal), 1 yes or 0 no. */
uint32_t raft_log_is_plain(const uint8_t *body, size_t body_len, uint32_t signature, uint64_t answer[2]);

/* The same as raft_log_check_body, with the item rows and the entry rows. 21 where too few are lent. */
uint32_t raft_log_read_body(const uint8_t *body, size_t body_len, uint32_t signature, uint64_t *items, size_t items_words, uint64_t *entries,
                            size_t entries_words, uint64_t answer[5]);

/* The same of a whole batch. Places in the rows, and the place after the last item, are in the body. answer: item (of a refusal), items,
 * entries, entry total, place after the last item, place of the body, its length, place of the block, its length. */
uint32_t raft_log_read_batch(const uint8_t *data, size_t data_len, uint32_t signature, uint64_t *items, size_t items_words,
                             uint64_t *entries, size_t entries_words, uint64_t answer[9]);

/* Writes all item rows as a body, from the start of out on. answer: item (of a refusal), length. Unless `checked`, there is no 23. No item
 * rows: count 0 and the footer. */
uint32_t raft_log_write_body(const uint64_t *items, size_t items_words, const uint64_t *entries, size_t entries_words, const uint8_t *store,
                             size_t store_len, uint32_t signature, bool checked, uint8_t *out, size_t out_len, uint64_t answer[2]);

/* Writes a whole batch, with `content` in its block. answer: item (of a refusal), length. Unless `checked`, there is no 23. No item rows
 * and no content: nothing is written, length 0. */
uint32_t raft_log_write_batch(const uint64_t *items, size_t items_words, const uint64_t *entries, size_t entries_words,
                              const uint8_t *store, size_t store_len, const uint8_t *content, size_t content_len, uint32_t signature,
                              bool checked, uint8_t *out, size_t out_len, uint64_t answer[2]);

/* Where the bytes of an entry stand in the block that its row's queue names. answer: place, length. File number
 * and block place are not looked at. 26 (queue above 1), 20, 5 and 6 unless the block is empty, 13. */
uint32_t raft_log_entry_view(const uint64_t row[6], const uint8_t *append, size_t append_len, const uint8_t *rewrite, size_t rewrite_len,
                             uint64_t answer[2]);

/* The status of an atomic group that an item row marks. answer: 0 no mark, 1 begin, 2 middle, 3 end; the group (0 where there is no mark).
 * 10, 11, 12 (no item), 13, 28. */
uint32_t raft_log_status(const uint64_t row[7], const uint8_t *store, size_t store_len, uint64_t answer[2]);

/* Replaces rows of a location table by incoming ones. answer: rows replaced, rewritten count (after a refusal 0 and the old count).
 * `gate` counts where with_gate. 26, 27, 24, 25. A row whose queue is above 1 is a 26 in the table and a 27 among the incoming ones. */
uint32_t raft_log_rewrite(uint64_t *table, size_t table_words, uint64_t first_index, uint64_t rewritten, const uint64_t *incoming,
                          size_t incoming_words, uint64_t incoming_first, bool with_gate, uint64_t gate, uint64_t answer[2]);

/* The longest run of rows from the rewritten count on whose file number is at most the gate. answer: place, length. An empty
 * run has the rewritten count as its place. 26. */
uint32_t raft_log_fetch(const uint64_t *table, size_t table_words, uint64_t first_index, uint64_t rewritten, uint64_t gate,
                        uint64_t answer[2]);

#ifdef __cplusplus
}
#endif

#endif

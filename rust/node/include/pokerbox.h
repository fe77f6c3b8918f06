/* The private transaction queue: the calls of libpokerbox.a. docs/CALLS.md and docs/AREA.md of the
 * repository say what each does, byte by byte.
 *
 * To compile and link, after `bash tools/install.sh PREFIX` of the repository:
 *   cc unit.c $(pkg-config --cflags --libs pokerbox) -o unit
 * with PREFIX/lib/pkgconfig in PKG_CONFIG_PATH, or
 *   cc -IPREFIX/include unit.c -LPREFIX/lib -lpokerbox -o unit
 * It needs nothing else but the C library's memory functions.
 *
 * A byte slice is a pointer and a length. A pointer is never null, even with length 0. What is
 * written overlaps nothing else that is lent to the same call. Numbers in bytes are big-endian.
 *
 * Each call gives back one number:
 *   1 to 18, 20, 21, 22  a refusal; nothing lent has changed, except the next area after 17;
 *   100                  the call was answered;
 *   100 to 103           a changing call's kind on top of 100.
 *
 * A flag is 0 or 1; what stands beside a flag of 0 is not looked at. An id has 32 bytes. A list of
 * ids is 32 bytes an id.
 *
 * Calls use no heap and no files. A thread that calls needs at least 1 MiB of stack; 160 KiB while
 * the queue holds at most 8,192 inputs and read ids together. */

#ifndef POKERBOX_H
#define POKERBOX_H

#include <stddef.h>
#include <stdint.h>

#ifdef __cplusplus
extern "C" {
#endif

/* Refusals. */
#define POKERBOX_LIMIT_OUT_OF_RANGE 1
#define POKERBOX_AREA_TOO_SHORT 2
#define POKERBOX_AREA_NOT_SOUND 3
#define POKERBOX_OUTPUT_TOO_SHORT 4
#define POKERBOX_MALFORMED 5
#define POKERBOX_TOO_MANY_INPUTS 6
#define POKERBOX_TIME_DEADLINE_ELAPSED 7
#define POKERBOX_HEIGHT_DEADLINE_ELAPSED 8
#define POKERBOX_LABEL_TOO_LONG 9
#define POKERBOX_QUEUE_FULL 10
#define POKERBOX_BYTE_BUDGET_EXHAUSTED 11
#define POKERBOX_INPUT_RESERVED 12
#define POKERBOX_NOT_FOUND 13
#define POKERBOX_ALREADY_MINED 14
#define POKERBOX_COUNTER_EXHAUSTED 15
#define POKERBOX_NOT_AN_IMAGE 16
#define POKERBOX_WRITE_FAILED 17
#define POKERBOX_SHARE_EXHAUSTED 18
#define POKERBOX_READ_AND_SPENT 20
#define POKERBOX_FEES_TOO_LARGE 21
#define POKERBOX_NOT_CONVERTIBLE 22

/* Answers: of calls without a kind, and of changing calls by kind. */
#define POKERBOX_ANSWERED 100
#define POKERBOX_ANSWERED_NOTHING 100
#define POKERBOX_ANSWERED_MEMORY 101
#define POKERBOX_ANSWERED_WHOLE 102
#define POKERBOX_ANSWERED_CURSOR 103

/* Kinds: nothing changed and the next area is untouched; the next area holds the queue and no write
 * is due; a write is due for a changed record; a write is due for the cursor alone. */
#define POKERBOX_KIND_NOTHING 0
#define POKERBOX_KIND_MEMORY 1
#define POKERBOX_KIND_WHOLE 2
#define POKERBOX_KIND_CURSOR 3

/* Outcomes of a write, for pokerbox_settle. */
#define POKERBOX_OUTCOME_KEPT 0
#define POKERBOX_OUTCOME_FAILED 1

/* States of a record. */
#define POKERBOX_STATE_QUEUED 0
#define POKERBOX_STATE_MINED 2
#define POKERBOX_STATE_CONFLICTED 3
#define POKERBOX_STATE_CANCELLED 4
#define POKERBOX_STATE_EXPIRED 5

/* Reasons of a state. */
#define POKERBOX_REASON_NONE 0
#define POKERBOX_REASON_CANCELLED 1
#define POKERBOX_REASON_DEADLINE_ELAPSED 2
#define POKERBOX_REASON_ROLLED_BACK_AFTER_RELEASE 3
#define POKERBOX_REASON_ROLLED_BACK 4
#define POKERBOX_REASON_INPUTS_UNAVAILABLE 5

/* The top settings of the limits P, B, T, K; the least one is 1. */
#define POKERBOX_MAX_PENDING 1024
#define POKERBOX_MAX_BYTES 16777216
#define POKERBOX_MAX_TOMBSTONES 1024
#define POKERBOX_MAX_INPUTS 128

/* Callers are 0 to 15. Shares, one for each, are lent as sixteen numbers of 4 bytes: each from 0 to
 * P. For a unit that does not tell its callers apart, caller 0 admits, share 0 is P and the others
 * are 0. */
#define POKERBOX_CALLERS 16
#define POKERBOX_SHARES_LEN 64

/* pokerbox_best_fees: how many records are candidates, and the largest budget. */
#define POKERBOX_MAX_CANDIDATES 20
#define POKERBOX_MAX_BUDGET 2097151

/* The bytes that an area needs under the limits P, B, T, K: 2B + 2P * (512 + 96K) + 512T + 512. As
 * pokerbox_need has it, for areas whose limits are known when the program is compiled. */
#define POKERBOX_AREA_LEN(p, b, t, k) \
    (2 * (uint64_t)(b) + 2 * (uint64_t)(p) * (512 + 96 * (uint64_t)(k)) + 512 * (uint64_t)(t) + 512)

/* No image is longer: two digits for each byte of an area, and a line end for each of at most
 * 2P + T + 1 frames. */
#define POKERBOX_MAX_IMAGE_LEN(p, b, t, k) \
    (2 * POKERBOX_AREA_LEN(p, b, t, k) + 2 * (uint64_t)(p) + (uint64_t)(t) + 1)

/* A fresh queue under the limits P, B, T, K and these shares into `area`, which needs
 * POKERBOX_AREA_LEN bytes. Gives 1 (a limit out of range, or a share over P), 2, 5 (`shares` has not
 * POKERBOX_SHARES_LEN bytes) or 100. */
uint64_t pokerbox_fresh(uint64_t pending, uint64_t bytes, uint64_t tombstones, uint64_t inputs,
                        const uint8_t *shares, size_t shares_len, uint8_t *area, size_t area_len);

/* 100 if the area holds a sound queue, else 3. */
uint64_t pokerbox_sound(const uint8_t *area, size_t area_len);

/* Admits a transaction. `out` gets its entry: the new one, or with kind 0 the old one of a pending or
 * Mined id, whoever asks. 18 where as many records of `caller`, 0 to 15, are pending as its share
 * allows. `reads` has the ids that are only read, at most K; 20 where another record spends one of
 * them, or reads an input. `priority` is in two's complement, of 64 bits. */
uint64_t pokerbox_admit(const uint8_t *cur, size_t cur_len, uint8_t *next, size_t next_len,
                        const uint8_t *id, size_t id_len, uint8_t caller, const uint8_t *inputs,
                        size_t inputs_len, const uint8_t *outputs, size_t outputs_len,
                        const uint8_t *reads, size_t reads_len, const uint8_t *signed_bytes,
                        size_t signed_len, uint64_t now, uint8_t time_flag, uint64_t time,
                        uint8_t height_flag, uint32_t height, uint64_t priority,
                        uint8_t label_flag, const uint8_t *label, size_t label_len, uint64_t fee,
                        uint64_t cost, uint32_t tip_height, uint8_t tip_flag, const uint8_t *tip,
                        size_t tip_len, uint8_t *out, size_t out_len);

/* Withdraws a pending record. `out` gets its entry after the call. */
uint64_t pokerbox_cancel(const uint8_t *cur, size_t cur_len, uint8_t *next, size_t next_len,
                         const uint8_t *id, size_t id_len, uint8_t *out, size_t out_len);

/* Withdraws the records whose deadline is due at `now` (milliseconds) or `height`. `out` gets a
 * count of 4 bytes and their ids, rising. */
uint64_t pokerbox_expire(const uint8_t *cur, size_t cur_len, uint8_t *next, size_t next_len,
                         uint64_t now, uint32_t height, uint8_t *out, size_t out_len);

/* Reconciles with the chain at `height`. `applied` has entries of id 32, height 4 and block id 32,
 * strictly rising by id; `available` has ids of what can be spent and read, strictly rising. `out` gets
 * a flag, whether anything changed, a count of 4 bytes, and the ids released in the order in which they
 * were finished. */
uint64_t pokerbox_reconcile(const uint8_t *cur, size_t cur_len, uint8_t *next, size_t next_len,
                            uint32_t height, const uint8_t *tip, size_t tip_len,
                            const uint8_t *applied, size_t applied_len, uint8_t caught_up,
                            const uint8_t *available, size_t available_len, uint32_t window,
                            uint8_t *out, size_t out_len);

/* Reopens the Mined records of `ids`, 32 bytes each, strictly rising. */
uint64_t pokerbox_reopen(const uint8_t *cur, size_t cur_len, uint8_t *next, size_t next_len,
                         const uint8_t *ids, size_t ids_len);

/* Sets the observation cursor. */
uint64_t pokerbox_set_cursor(const uint8_t *cur, size_t cur_len, uint8_t *next, size_t next_len,
                             uint32_t height, uint8_t tip_flag, const uint8_t *tip,
                             size_t tip_len);

/* Settles a due write: kind 2 or 3, outcome 0 kept or 1 failed. The next area then holds the queue,
 * also after 17. */
uint64_t pokerbox_settle(const uint8_t *cur, size_t cur_len, uint8_t *next, size_t next_len,
                         uint64_t kind, uint64_t outcome);

/* The image of the queue at the start of `out`, its length behind `length`. POKERBOX_MAX_IMAGE_LEN
 * bytes are enough. */
uint64_t pokerbox_image(const uint8_t *area, size_t area_len, uint8_t *out, size_t out_len,
                        uint64_t *length);

/* The queue of an image, of any kind in docs/AREA.md, into `area`. Gives 16, 2 or 100. */
uint64_t pokerbox_open(const uint8_t *text, size_t text_len, uint8_t *area, size_t area_len);

/* The bytes that an area needs under the limits P, B, T, K behind `value`. Gives 1 or 100. */
uint64_t pokerbox_need(uint64_t pending, uint64_t bytes, uint64_t tombstones, uint64_t inputs,
                       uint64_t *value);

/* The limits P, B, T, K of an image's queue, and the bytes that an area needs under them, each behind
 * its pointer; its shares over the first POKERBOX_SHARES_LEN bytes of `shares`. Gives 16 exactly where
 * pokerbox_open does, 4 where `shares` has fewer bytes, or 100. */
uint64_t pokerbox_image_limits(const uint8_t *text, size_t text_len, uint64_t *pending,
                               uint64_t *bytes, uint64_t *tombstones, uint64_t *inputs,
                               uint8_t *shares, size_t shares_len, uint64_t *need);

/* For units with the first version: the image of kind 01 of the queue that an image of kind 06 has, at
 * the start of `out`, its length behind `length`. As many bytes as the text has are enough. Gives 16
 * (no image of a sound queue, or one of another kind), 22 where kind 01 cannot hold the queue (a
 * priority outside 32 bits, a caller other than 0, shares other than P and fifteen zeros, the withdrawn
 * mark 3 or a read id), 4 or 100. */
uint64_t pokerbox_convert(const uint8_t *text, size_t text_len, uint8_t *out, size_t out_len,
                          uint64_t *length);

/* The entry of one record. */
uint64_t pokerbox_entry(const uint8_t *area, size_t area_len, const uint8_t *id, size_t id_len,
                        uint8_t *out, size_t out_len);

/* Where the record's signed bytes stand in the area: their start and their length. */
uint64_t pokerbox_signed_bytes(const uint8_t *area, size_t area_len, const uint8_t *id,
                               size_t id_len, uint64_t *start, uint64_t *length);

/* As pokerbox_selection_entries_at with now 0 and height 0. */
uint64_t pokerbox_selection_entries(const uint8_t *area, size_t area_len, uint8_t *out,
                                    size_t out_len);

/* A count of 4 bytes and the ids of the Queued records with deadlines after `now` and above
 * `height`: priority falling, then created, then id rising. */
uint64_t pokerbox_selection_entries_at(const uint8_t *area, size_t area_len, uint64_t now,
                                       uint32_t height, uint8_t *out, size_t out_len);

/* A count of 4 bytes and the ids of the records that pokerbox_selection_entries_at gives at `now` and
 * `height`, parents first. A record waits for every other one of them that has one of its inputs or read
 * ids among its outputs; the next one listed is always the first, in the order of pokerbox_selection_entries_at,
 * of those that wait for nothing unlisted. Those that still wait at the end are left off. */
uint64_t pokerbox_selection_parents_first(const uint8_t *area, size_t area_len, uint64_t now,
                                          uint32_t height, uint8_t *out, size_t out_len);

/* Of the first POKERBOX_MAX_CANDIDATES records that pokerbox_selection_entries_at gives at `now` and
 * `height`, the set with the most fee whose signed bytes are at most `limit` together, as good as
 * `budget` steps allow, 1 to POKERBOX_MAX_BUDGET. `out` gets the set's fee, 8 bytes, the steps used,
 * 4 bytes, the distance, 8 bytes, a count of 4 bytes and the set's ids in the order of the
 * selection; 664 bytes are enough. No set of these records that fits has more than the fee plus the
 * distance. */
uint64_t pokerbox_best_fees(const uint8_t *area, size_t area_len, uint64_t limit, uint64_t budget,
                            uint64_t now, uint32_t height, uint8_t *out, size_t out_len);

/* The revision behind `value`. */
uint64_t pokerbox_revision(const uint8_t *area, size_t area_len, uint64_t *value);

/* 1 behind `value` without records, else 0. */
uint64_t pokerbox_is_empty(const uint8_t *area, size_t area_len, uint64_t *value);

/* 1 behind `value` if a pending record's deadline is due, else 0. */
uint64_t pokerbox_deadline_due(const uint8_t *area, size_t area_len, uint64_t now, uint32_t height,
                               uint64_t *value);

/* The cursor height behind `value`. */
uint64_t pokerbox_observed_height(const uint8_t *area, size_t area_len, uint64_t *value);

/* Height of 4 bytes, tip flag, and the tip of 32 bytes if there is one. */
uint64_t pokerbox_observation_cursor(const uint8_t *area, size_t area_len, uint8_t *out,
                                     size_t out_len);

/* A count of 4 bytes and the ids of all records, rising. */
uint64_t pokerbox_record_ids(const uint8_t *area, size_t area_len, uint8_t *out, size_t out_len);

/* A count of 4 bytes and the ids of the holders, rising. */
uint64_t pokerbox_guarded_ids(const uint8_t *area, size_t area_len, uint8_t *out, size_t out_len);

/* A count of 4 bytes and the input ids of all records, rising, each once; not what is only read. */
uint64_t pokerbox_reserved_inputs(const uint8_t *area, size_t area_len, uint8_t *out,
                                  size_t out_len);

/* The revision, 8 bytes, then as pokerbox_reserved_inputs. */
uint64_t pokerbox_reservation_snapshot(const uint8_t *area, size_t area_len, uint8_t *out,
                                       size_t out_len);

/* As pokerbox_guarded_ids, then as pokerbox_reserved_inputs. */
uint64_t pokerbox_guard_snapshot(const uint8_t *area, size_t area_len, uint8_t *out,
                                 size_t out_len);

/* A count of 4 bytes and the entries of all records, by id. */
uint64_t pokerbox_list(const uint8_t *area, size_t area_len, uint8_t *out, size_t out_len);

/* A count of 4 bytes, then id and state of each record that is due, by id. */
uint64_t pokerbox_due(const uint8_t *area, size_t area_len, uint64_t now, uint32_t height,
                      uint8_t *out, size_t out_len);

/* A count of 4 bytes, then id, mined height of 4 bytes and block id of each Mined record, by id. */
uint64_t pokerbox_confirmations(const uint8_t *area, size_t area_len, uint8_t *out,
                                size_t out_len);

#ifdef __cplusplus
}
#endif

#endif

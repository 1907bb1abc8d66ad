/*
 * timeslices: the time slices of one aeronautical feature, kept in tables of bytes that the caller owns.
 *
 * Link with libtimeslices.a, which `make lib` writes. docs/FORMAT.md describes the bytes of tables, slices and records, and how a
 * state is worked out. docs/REFUSALS.md explains each refusal number and gives the order in which each call checks them.
 *
 * Memory
 *   Each pointer must point to as many bytes as the length after it says. A pointer may be NULL if its length is 0. The
 *   feature must always point to 16 bytes. A buffer that a call writes to (table, record, output or text) must not overlap
 *   any other argument. Nothing else is required: a call returns a defined answer for any bytes, lengths and numbers.
 *   No call allocates memory, keeps a pointer or depends on an earlier call. Threads may call at the same time, as long as
 *   none writes to bytes that another one uses.
 *
 * Times
 *   An instant is a number of seconds since 2000-01-01T00:00:00Z. 4294967295 means none.
 *
 * Refusals
 *   A refused call returns kind 0 and one of these numbers, and changes no byte. If several numbers apply, it returns the one
 *   that docs/REFUSALS.md lists first for that call.
 *
 *   The table (1 to 7: every call that reads a table)
 *      1   the table has fewer than 32 bytes
 *      2   the letters are not TSL, or the side is not one that the call takes
 *      3   the version is not 1
 *      4   header bytes 24 to 31 are not zero
 *      5   the record count is larger than the room
 *      6   a record in the table fails one of 11 to 16
 *      7   the records are not in strictly rising order of kind, then sequence number
 *      8   the two tables are of different features (snapshot and property)
 *   The slice
 *      9   the slice does not have 240 bytes
 *     10   the slice is of another feature than the table
 *     11   the kind is unknown, or belongs to the other side
 *     12   flag bits 1 to 7 or bytes 24 to 31 of the record are not zero
 *     13   the record is cancelled, but it gives a time or a property
 *     14   a property breaks the layout
 *     15   the times break the rules of the kind
 *     16   the content breaks the rules of the kind
 *     17   kind, sequence number and correction number are stored already, with other bytes
 *     18   kind and sequence number are new, and the table is full
 *   The question
 *     19   the instant is none, or the property number is over 7
 *     20   no state is known at the instant
 *     21   two anchors at the instant (a derivation: at a change instant)
 *     22   the feature is withdrawn at the instant
 *     23   the record buffer does not have 224 bytes, or the output cannot hold the derived baselines
 *     24   a derived record fails the slice check; it is proved that this does not happen
 */
#ifndef TIMESLICES_H
#define TIMESLICES_H

#include <stddef.h>
#include <stdint.h>

#ifdef __cplusplus
extern "C" {
#endif

/* An answer. Kind 0: refused, and number is the refusal number. Other kinds: see each call. Unused fields are 0. */
typedef struct {
    uint32_t kind;
    uint32_t number;
} tsl_answer;

/*
 * Where a property is. Kind 0: refused, and number is the refusal number. Other kinds: see tsl_property. Unused fields
 * are 0.
 */
typedef struct {
    uint32_t kind;
    uint32_t number;
    uint64_t at;
    uint64_t size;
} tsl_part;

/*
 * Creates an empty table of a side (0 permanent, 1 temporary) and a feature. Writes the 32 bytes of the header and nothing
 * else. Checks only the buffer's length and the side; old contents are ignored. The table has room for (table_len - 32) / 224
 * records, but for 256 at most.
 *
 * Returns
 *   kind 1   created
 *   kind 0   refused: 1, 2 (side is neither 0 nor 1)
 */
tsl_answer tsl_new_table(uint8_t *table, size_t table_len, uint8_t side, const uint8_t feature[16]);

/*
 * Delivers a slice of 240 bytes to a table of either side. Writes no byte after the last record that the table then counts.
 *
 * Returns
 *   kind 1   Added: kind and sequence number are new; the record was put in its place
 *   kind 2   Replaced: the correction number is higher than the stored one; the record replaced the stored one
 *   kind 3   Superseded: the correction number is lower than the stored one; nothing changed
 *   kind 4   Repeat: correction number and bytes are equal to the stored ones; nothing changed
 *   kind 0   refused: 1 to 7, 9 to 18
 */
tsl_answer tsl_arrive(uint8_t *table, size_t table_len, const uint8_t *slice, size_t slice_len);

/*
 * Writes the permanent state at an instant into a record of 224 bytes. Writes every byte of the record, or none.
 *
 * Returns
 *   kind 1   written
 *   kind 0   refused: 1 to 7, 19 to 23
 */
tsl_answer tsl_permanent_state(const uint8_t *permanent, size_t permanent_len, uint32_t instant, uint8_t *record,
                               size_t record_len);

/*
 * Writes the snapshot at an instant into a record of 224 bytes: the permanent state, changed by the TEMPDELTAs that are valid
 * at the instant. Writes every byte of the record, or none.
 *
 * Returns
 *   kind 1   written
 *   kind 0   refused: 1 to 7 of either table, 8, 19 to 23
 */
tsl_answer tsl_snapshot(const uint8_t *permanent, size_t permanent_len, const uint8_t *temporary, size_t temporary_len,
                        uint32_t instant, uint8_t *record, size_t record_len);

/*
 * Finds a property (0 to 7) at an instant: its bytes in the record that mentioned it last. They are the bytes that the
 * snapshot has for it, and they are within the table.
 *
 * Returns
 *   kind 1   permanent: the property is the size bytes that begin at byte at of the permanent table
 *   kind 2   temporary: the property is the size bytes that begin at byte at of the temporary table
 *   kind 3   unmentioned: a state is known, but no record mentions the property
 *   kind 0   refused: 1 to 7 of either table, 8, 19 to 22
 */
tsl_part tsl_property(const uint8_t *permanent, size_t permanent_len, const uint8_t *temporary, size_t temporary_len,
                      uint32_t instant, uint8_t property);

/*
 * Tells whether anything temporary touches a property (0 to 7) at an instant. Goes through a temporary table from its last
 * record downward, and stops at the first TEMPDELTA that is not cancelled, is valid at the instant and mentions the property
 * (nil is a mention). Reads no permanent table, so the answer may be yes where no state is known. Where tsl_property is not
 * refused, the answer is yes exactly if tsl_property returns kind 2.
 *
 * Returns
 *   kind 1   yes: number is the number of records looked at, the found one and all after it
 *   kind 2   no: number is the number of records looked at, which is all of them
 *   kind 0   refused: 1 to 7, 19
 */
tsl_answer tsl_touched(const uint8_t *temporary, size_t temporary_len, uint32_t instant, uint8_t property);

/*
 * Derives the baselines of a permanent table. The output becomes a permanent table of the same feature; its bytes after the
 * last record are kept. 57376 bytes hold every result. Uses about 9 kB of stack.
 *
 * Returns
 *   kind 1   derived: number is the number of records
 *   kind 0   refused: 1 to 7, 21, 23, 24
 */
tsl_answer tsl_derive(const uint8_t *permanent, size_t permanent_len, uint8_t *output, size_t output_len);

/*
 * Writes the listing of a permanent table's derived baselines as text. This call is never refused: if tsl_derive refuses the
 * table for an output of 57376 bytes, the text is the line "refused N". The table may have any length, over 57376 bytes too;
 * as always, bytes after its last record are ignored. (Only the listing program stops there, with "too long".) The text has no
 * zero byte at its end, and the bytes after it are kept. 10771 bytes hold every listing. Uses about 77 kB of stack.
 *
 * Returns
 *   kind 1   written: number is the length of the text
 *   kind 2   the text does not fit: number is the length that it needs, and no byte is changed
 */
tsl_answer tsl_listing(const uint8_t *permanent, size_t permanent_len, uint8_t *text, size_t text_len);

#ifdef __cplusplus
}
#endif

#endif

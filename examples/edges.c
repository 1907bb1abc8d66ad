/*
 * The edges of the C interface: each call with each pointer NULL and its length 0, one at a time and together, and the lengths
 * at which an answer changes. Prints the kind and the number of each answer beside what was asked; examples/edges.txt has what the
 * specification says of it.
 *
 *     make lib
 *     cc -std=c11 -Iinclude examples/edges.c target/staticlib/libtimeslices.a -o edges
 */
#include <stdio.h>
#include <string.h>

#include "timeslices.h"

enum { HEADER_BYTES = 32, RECORD_BYTES = 224, SLICE_BYTES = 240, LONG_BYTES = HEADER_BYTES + 256 * RECORD_BYTES + 1 };
enum { PERMANENT = 0, TEMPORARY = 1, OTHER_SIDE = 2 };
enum { BASELINE = 1, NIL = 1, UNKNOWN = 4, OTHER_PROPERTY = 8 };

static const uint32_t NONE = 0xffffffffu;
static const uint8_t FEATURE[16] = {0x5e, 0x1f}, STRANGER[16] = {0x5e, 0x20};

/* What is lent for writing, and what it holds before each call: a refused call changes no byte. */
static uint8_t lent[SLICE_BYTES];
static const uint8_t FILLED = 0x5a;

/* Lends memory that is filled. */
static uint8_t *lend(void) {
    memset(lent, FILLED, sizeof lent);
    return lent;
}

/* Prints an answer beside what was asked, and whether a call that wrote nothing changed what was lent. */
static void say(uint32_t kind, uint32_t number, int wrote, const char *asked) {
    printf("%u %u\t%s\n", (unsigned)kind, (unsigned)number, asked);
    for (size_t i = 0; i < sizeof lent && !wrote; i++) {
        if (lent[i] != FILLED) {
            printf("byte %u was changed\n", (unsigned)i);
        }
    }
}

/* Prints the answer of a call that makes, files, writes or derives. */
static void told(tsl_answer answer, const char *asked) {
    say(answer.kind, answer.number, answer.kind != 0, asked);
}

/* Prints the answer of a listing, and its text where one is written. */
static void listed(tsl_answer answer, const char *asked) {
    say(answer.kind, answer.number, answer.kind == 1, asked);
    if (answer.kind == 1) {
        fwrite(lent, 1, answer.number, stdout);
    }
}

/* Prints the answer of a property that is found nowhere: no place, no size. */
static void sought(tsl_part part, const char *asked) {
    say(part.kind, part.number, 0, asked);
    if (part.at != 0 || part.size != 0) {
        printf("a place is said\n");
    }
}

/* Prints the answer of a call that only reads. */
static void looked(tsl_answer answer, const char *asked) {
    say(answer.kind, answer.number, 0, asked);
}

/* Writes a number of four bytes, the highest first. */
static void put(uint8_t *bytes, uint32_t number) {
    for (int i = 3; i >= 0; i--) {
        bytes[i] = (uint8_t)(number & 0xff);
        number >>= 8;
    }
}

/* Delivers a BASELINE from an instant on, each of its properties nil, unknown. */
static void deliver(uint8_t *table, size_t table_len, uint32_t sequence, uint32_t begin) {
    uint8_t slice[SLICE_BYTES] = {0};
    uint8_t *record = slice + sizeof FEATURE;
    memcpy(slice, FEATURE, sizeof FEATURE);
    record[0] = BASELINE;
    put(record + 4, sequence);
    put(record + 8, begin);
    put(record + 12, NONE);
    put(record + 16, begin);
    put(record + 20, NONE);
    for (int i = 0; i < 8; i++) {
        record[HEADER_BYTES + 24 * i] = NIL;
        record[HEADER_BYTES + 24 * i + 1] = UNKNOWN;
    }
    if (tsl_arrive(table, table_len, slice, sizeof slice).kind != 1) {
        printf("the BASELINE from %u on was not added\n", (unsigned)begin);
    }
}

/* Delivers a slice of no bytes to a table of at most 256 bytes, and prints the answer, and whether a byte of the table changed. */
static void deliver_nothing(uint8_t *table, size_t table_len, const char *asked) {
    uint8_t before[HEADER_BYTES + RECORD_BYTES];
    memcpy(before, table, table_len);
    told(tsl_arrive(table, table_len, NULL, 0), asked);
    if (memcmp(before, table, table_len) != 0) {
        printf("the table was changed\n");
    }
}

int main(void) {
    static uint8_t empty[HEADER_BYTES + RECORD_BYTES], one[LONG_BYTES], two[HEADER_BYTES + 2 * RECORD_BYTES];
    static uint8_t temporary[HEADER_BYTES], stranger[HEADER_BYTES], unlettered[HEADER_BYTES];
    static const uint8_t slice[SLICE_BYTES] = {0};
    const size_t one_len = HEADER_BYTES + RECORD_BYTES;
    tsl_new_table(empty, sizeof empty, PERMANENT, FEATURE);
    tsl_new_table(one, sizeof one, PERMANENT, FEATURE);
    deliver(one, sizeof one, 1, 100);
    tsl_new_table(two, sizeof two, PERMANENT, FEATURE);
    deliver(two, sizeof two, 1, 100);
    deliver(two, sizeof two, 2, 100);
    tsl_new_table(temporary, sizeof temporary, TEMPORARY, FEATURE);
    tsl_new_table(stranger, sizeof stranger, TEMPORARY, STRANGER);
    lend();

    told(tsl_new_table(NULL, 0, PERMANENT, FEATURE), "a new table, of no bytes: it is under 32 bytes");
    told(tsl_new_table(NULL, 0, OTHER_SIDE, FEATURE), "a new table, of no bytes, of a side that no call takes: 1 comes before 2");

    told(tsl_arrive(NULL, 0, slice, sizeof slice), "an arrival at a table of no bytes");
    deliver_nothing(empty, sizeof empty, "an arrival of a slice of no bytes at a permanent table: it has not 240");
    deliver_nothing(temporary, sizeof temporary, "an arrival of a slice of no bytes at a temporary table");
    deliver_nothing(unlettered, sizeof unlettered,
                    "an arrival of a slice of no bytes at a table with wrong letters: 2 comes before 9");
    told(tsl_arrive(NULL, 0, NULL, 0), "an arrival of a slice of no bytes at a table of no bytes: 1 comes before 9");

    told(tsl_permanent_state(NULL, 0, 200, lend(), RECORD_BYTES), "the permanent state of a table of no bytes");
    told(tsl_permanent_state(one, one_len, 200, NULL, 0), "the permanent state in a record of no bytes: it has not 224");
    told(tsl_permanent_state(empty, sizeof empty, 200, NULL, 0),
         "the permanent state in a record of no bytes, where none is known: 23 comes before 20");
    told(tsl_permanent_state(two, sizeof two, 200, NULL, 0),
         "the permanent state in a record of no bytes, where there are two anchors: 23 comes before 21");
    told(tsl_permanent_state(one, one_len, NONE, NULL, 0),
         "the permanent state in a record of no bytes, at no instant: 19 comes before 23");
    told(tsl_permanent_state(NULL, 0, NONE, NULL, 0),
         "the permanent state of a table of no bytes in a record of no bytes, at no instant: 1 comes first");

    told(tsl_snapshot(NULL, 0, temporary, sizeof temporary, 200, lend(), RECORD_BYTES),
         "the snapshot of a permanent table of no bytes");
    told(tsl_snapshot(one, one_len, NULL, 0, 200, lend(), RECORD_BYTES), "the snapshot of a temporary table of no bytes");
    told(tsl_snapshot(one, one_len, temporary, sizeof temporary, 200, NULL, 0), "the snapshot in a record of no bytes");
    told(tsl_snapshot(NULL, 0, NULL, 0, 200, lend(), RECORD_BYTES), "the snapshot of two tables of no bytes");
    told(tsl_snapshot(NULL, 0, temporary, sizeof temporary, 200, NULL, 0),
         "the snapshot of a permanent table of no bytes in a record of no bytes");
    told(tsl_snapshot(one, one_len, NULL, 0, 200, NULL, 0),
         "the snapshot of a temporary table of no bytes in a record of no bytes");
    told(tsl_snapshot(NULL, 0, NULL, 0, 200, NULL, 0), "the snapshot of two tables of no bytes in a record of no bytes");
    told(tsl_snapshot(unlettered, sizeof unlettered, NULL, 0, 200, lend(), RECORD_BYTES),
         "the snapshot of a temporary table of no bytes, the permanent one with wrong letters: it is looked at first");
    told(tsl_snapshot(NULL, 0, unlettered, sizeof unlettered, 200, lend(), RECORD_BYTES),
         "the snapshot of a permanent table of no bytes, the temporary one with wrong letters");
    told(tsl_snapshot(one, one_len, stranger, sizeof stranger, 200, NULL, 0),
         "the snapshot of two features in a record of no bytes: 8 comes before 23");
    told(tsl_snapshot(one, one_len, temporary, sizeof temporary, NONE, NULL, 0),
         "the snapshot in a record of no bytes, at no instant: 19 comes before 23");

    sought(tsl_property(NULL, 0, temporary, sizeof temporary, 200, 0), "a property of a permanent table of no bytes");
    sought(tsl_property(one, one_len, NULL, 0, 200, 0), "a property of a temporary table of no bytes");
    sought(tsl_property(NULL, 0, NULL, 0, 200, 0), "a property of two tables of no bytes");
    sought(tsl_property(NULL, 0, NULL, 0, 200, OTHER_PROPERTY), "property 8 of two tables of no bytes: 1 comes before 19");

    looked(tsl_touched(NULL, 0, 200, 0), "whether a property is touched, in a table of no bytes");
    looked(tsl_touched(NULL, 0, NONE, OTHER_PROPERTY),
           "whether property 8 is touched, in a table of no bytes, at no instant: 1 comes before 19");
    looked(tsl_touched(temporary, sizeof temporary - 1, 200, 0), "whether a property is touched, in 31 bytes");
    looked(tsl_touched(temporary, sizeof temporary, 200, 7),
           "whether property 7 is touched, in an empty table: no, and no record is looked at");
    looked(tsl_touched(temporary, sizeof temporary, NONE - 1, 0), "whether a property is touched, at the last instant");
    looked(tsl_touched(temporary, sizeof temporary, NONE, 0), "whether a property is touched, at no instant");
    looked(tsl_touched(temporary, sizeof temporary, 200, OTHER_PROPERTY), "whether property 8 is touched: there are 0 to 7");
    looked(tsl_touched(stranger, sizeof stranger, 200, 0),
           "whether a property of another feature is touched: no other table is asked for");
    looked(tsl_touched(one, one_len, NONE, 0), "whether a property is touched, in a permanent table: 2 comes before 19");

    told(tsl_derive(NULL, 0, lend(), sizeof lent), "the derived baselines of a table of no bytes");
    told(tsl_derive(one, one_len, NULL, 0), "the derived baselines in an output of no bytes: 32 and 224 do not fit");
    told(tsl_derive(empty, sizeof empty, NULL, 0),
         "the derived baselines of an empty table in an output of no bytes: 32 do not fit");
    told(tsl_derive(empty, sizeof empty, lend(), 31), "the derived baselines of an empty table in 31 bytes");
    told(tsl_derive(empty, sizeof empty, lend(), 32), "the derived baselines of an empty table in 32 bytes");
    lend();
    told(tsl_derive(two, sizeof two, NULL, 0),
         "the derived baselines in an output of no bytes, where there are two anchors: 21 comes before 23");
    told(tsl_derive(NULL, 0, NULL, 0),
         "the derived baselines of a table of no bytes in an output of no bytes: 1 comes before 23");

    listed(tsl_listing(NULL, 0, lend(), sizeof lent), "the listing of a table of no bytes");
    lend();
    listed(tsl_listing(NULL, 0, NULL, 0), "the listing of a table of no bytes in a text of no bytes: it needs 10");
    listed(tsl_listing(empty, sizeof empty, NULL, 0), "the listing of an empty table in a text of no bytes");
    listed(tsl_listing(one, one_len, NULL, 0), "the listing of a baseline in a text of no bytes");
    listed(tsl_listing(one, one_len, lend(), 26), "the listing of a baseline in 26 bytes");
    listed(tsl_listing(one, one_len, lend(), 27), "the listing of a baseline in 27 bytes");
    listed(tsl_listing(one, sizeof one, lend(), sizeof lent),
           "the listing of a table of 57377 bytes: the call lists it, only the program finds it too long");
    return 0;
}

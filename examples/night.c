/*
 * The evening of the cancelled runway change, through the C interface. A runway is 3048 M long. A PERMDELTA shortens it to
 * 2100 M at 300, and is cancelled the evening before. The program prints the listing of derived baselines and the runway's
 * length, before and after the cancellation. docs/FORMAT.md describes the bytes that it writes.
 *
 *     make lib
 *     cc -std=c11 -Iinclude examples/night.c target/staticlib/libtimeslices.a -o night
 */
#include <stdio.h>
#include <string.h>

#include "timeslices.h"

enum {
    HEADER_BYTES = 32,
    RECORD_BYTES = 224,
    SLICE_BYTES = 240,
    PROPERTY_BYTES = 24,
    RECORDS = 3,
    TABLE_BYTES = HEADER_BYTES + RECORDS * RECORD_BYTES,
    LONGEST_LISTING = 10771
};

enum { BASELINE = 1, PERMDELTA = 2 };
enum { NIL = 1, CODE = 2, LENGTH = 4 };
enum { METRES = 1, UNKNOWN = 4 };

static const uint32_t NONE = 0xffffffffu;
static const uint8_t RUNWAY[16] = {0x5e, 0x1f, 0x09, 0xd4, 0x3a, 0x77, 0x4c, 0x10, 0x9b, 0x02, 0x60, 0x0d, 0xfe, 0xed, 0x00, 0x27};

/* Writes a number into count bytes, big-endian. */
static void put(uint8_t *bytes, int count, uint64_t number) {
    for (int i = count - 1; i >= 0; i--) {
        bytes[i] = (uint8_t)(number & 0xff);
        number >>= 8;
    }
}

/* Writes a length in metres into a property. */
static void put_length(uint8_t *property, double metres) {
    uint64_t bits;
    memcpy(&bits, &metres, sizeof bits);
    property[0] = LENGTH;
    property[1] = METRES;
    put(property + 8, 8, bits);
}

/* Returns the length in metres that a property holds. */
static double length_of(const uint8_t *property) {
    uint64_t bits = 0;
    double metres;
    for (int i = 8; i < 16; i++) {
        bits = bits << 8 | property[i];
    }
    memcpy(&metres, &bits, sizeof metres);
    return metres;
}

/* Writes a slice with sequence number 1 that mentions no property: feature, kind, correction number, begin and life begin. */
static void begin_slice(uint8_t *slice, uint8_t kind, uint16_t correction, uint32_t begin, uint32_t life_begin) {
    uint8_t *record = slice + sizeof RUNWAY;
    memset(slice, 0, SLICE_BYTES);
    memcpy(slice, RUNWAY, sizeof RUNWAY);
    record[0] = kind;
    put(record + 2, 2, correction);
    put(record + 4, 4, 1);
    put(record + 8, 4, begin);
    put(record + 12, 4, NONE);
    put(record + 16, 4, life_begin);
    put(record + 20, 4, NONE);
}

/* Returns the bytes of a property in a slice. */
static uint8_t *property_of(uint8_t *slice, int index) {
    return slice + sizeof RUNWAY + HEADER_BYTES + index * PROPERTY_BYTES;
}

/* Writes the BASELINE from 100 on: 3048 M long, property 1 a code, everything else unknown. */
static void write_baseline(uint8_t *slice) {
    begin_slice(slice, BASELINE, 0, 100, 100);
    put_length(property_of(slice, 0), 3048.0);
    property_of(slice, 1)[0] = CODE;
    put(property_of(slice, 1) + 8, 2, 7);
    for (int i = 2; i < 8; i++) {
        property_of(slice, i)[0] = NIL;
        property_of(slice, i)[1] = UNKNOWN;
    }
}

/* Writes the PERMDELTA at 300 that shortens the runway. */
static void write_change(uint8_t *slice) {
    begin_slice(slice, PERMDELTA, 0, 300, NONE);
    put_length(property_of(slice, 0), 2100.0);
}

/* Writes the cancellation of that PERMDELTA: correction 1, no times, no properties. */
static void write_cancellation(uint8_t *slice) {
    begin_slice(slice, PERMDELTA, 1, NONE, NONE);
    slice[sizeof RUNWAY + 1] = 1;
}

/* Delivers a slice and prints the answer. */
static void deliver(uint8_t *table, const uint8_t *slice, const char *what) {
    static const char *const answers[] = {"refused", "Added", "Replaced", "Superseded", "Repeat"};
    tsl_answer answer = tsl_arrive(table, TABLE_BYTES, slice, SLICE_BYTES);
    printf("%s: %s", what, answers[answer.kind]);
    if (answer.kind == 0) {
        printf(" with %u", (unsigned)answer.number);
    }
    printf("\n");
}

/* Prints the listing of the derived baselines. */
static void list(const uint8_t *table) {
    static uint8_t text[LONGEST_LISTING];
    tsl_answer answer = tsl_listing(table, TABLE_BYTES, text, sizeof text);
    fwrite(text, 1, answer.number, stdout);
}

/* Prints the runway's length at an instant: from the snapshot, and from the property in its table. */
static void ask(const uint8_t *permanent, const uint8_t *temporary, uint32_t instant) {
    uint8_t record[RECORD_BYTES];
    tsl_answer snapshot = tsl_snapshot(permanent, TABLE_BYTES, temporary, HEADER_BYTES, instant, record, sizeof record);
    tsl_part part = tsl_property(permanent, TABLE_BYTES, temporary, HEADER_BYTES, instant, 0);
    if (snapshot.kind == 1 && part.kind == 1) {
        printf("at %u the runway is %.0f M long, by byte %u of the permanent table %.0f M\n", (unsigned)instant,
               length_of(record + HEADER_BYTES), (unsigned)part.at, length_of(permanent + part.at));
    } else {
        printf("at %u refused with %u\n", (unsigned)instant, (unsigned)snapshot.number);
    }
}

int main(void) {
    static uint8_t permanent[TABLE_BYTES], temporary[HEADER_BYTES], derived[TABLE_BYTES];
    uint8_t baseline[SLICE_BYTES], change[SLICE_BYTES], cancellation[SLICE_BYTES];
    write_baseline(baseline);
    write_change(change);
    write_cancellation(cancellation);

    tsl_new_table(permanent, sizeof permanent, 0, RUNWAY);
    tsl_new_table(temporary, sizeof temporary, 1, RUNWAY);
    deliver(permanent, change, "the PERMDELTA at 300, before its BASELINE");
    deliver(permanent, baseline, "the BASELINE from 100 on");
    list(permanent);
    ask(permanent, temporary, 99);
    ask(permanent, temporary, 299);
    ask(permanent, temporary, 300);

    deliver(permanent, cancellation, "the evening before, its cancellation");
    deliver(permanent, change, "the PERMDELTA once more, late");
    list(permanent);
    ask(permanent, temporary, 300);

    tsl_answer again = tsl_derive(permanent, sizeof permanent, derived, sizeof derived);
    printf("derived baselines: %u; read back alone:\n", (unsigned)again.number);
    ask(derived, temporary, 300);
    return 0;
}

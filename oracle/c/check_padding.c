/*
 * Packed integers with a padding bit set: every call that reads bytes refuses
 * them, counts what came before, and leaves everything else as it was.
 */

#include "check.h"

#include <string.h>

/* Integers of five bytes, as bytes of a list: padded, and an overlong 0. */
#define PADDED 0x80, 0x80, 0x80, 0x80, 0x10
#define OVERLONG 0x80, 0x80, 0x80, 0x80, 0x00

_Static_assert(CEF_WARNINGS == 12 && CEF_WARN_WEIRD_NEGATIVE_DELTA_TICK == 11,
               "a row has 12 places");

/* A row of counts, and the place behind it, which no call writes to. */
static size_t row[CEF_WARNINGS + 1];

static const size_t NO_COUNTS[CEF_WARNINGS];
static const size_t ONE_OVERLONG[CEF_WARNINGS] = {[CEF_WARN_OVERLONG_INT_ENCODING] = 1};

static int32_t scratch[CEF_INPUT_MOST + 1];
static int32_t out[20];
static size_t count;

/* What the calls are lent holds its pattern. */
static void fill(void)
{
    for (int i = 0; i <= CEF_WARNINGS; i++)
        row[i] = LEFT;
    fill_ints(out, 20);
    fill_ints(scratch, CEF_SCRATCH_INTS);
    count = LEFT;
}

/* Whether the row holds these counts, and the place behind it is as it was. */
static int row_is(const size_t counts[CEF_WARNINGS])
{
    return memcmp(row, counts, sizeof row - sizeof row[0]) == 0 && row[CEF_WARNINGS] == LEFT;
}

/* Whether a refused call has left its output and set scratch to zeros. */
static int refused_whole(const size_t counts[CEF_WARNINGS])
{
    int right = row_is(counts) && count == LEFT && ints_left(out, 0, 20);
    for (size_t i = 0; i < CEF_SCRATCH_INTS; i++)
        right = right && scratch[i] == 0;
    return right;
}

static void check_int(void)
{
    int32_t value = LEFT;
    size_t next = LEFT;

    for (uint32_t fifth = 0; fifth < 256; fifth++) {
        const uint8_t bytes[] = {0x05, 0x80, 0x80, 0x80, 0x80, (uint8_t)fifth, 0x06};
        value = LEFT;
        next = LEFT;
        fill();
        if (fifth < 0x10) {
            CHECK(cef_read_int(bytes, 7, 1, &value, &next, row) == CEF_OK);
            CHECK(value == (int32_t)(fifth << 27) && next == 6);
            CHECK(row_is(fifth == 0 ? ONE_OVERLONG : NO_COUNTS));
        } else {
            CHECK(cef_read_int(bytes, 7, 1, &value, &next, row) == CEF_NON_ZERO_INT_PADDING);
            CHECK(value == LEFT && next == LEFT && row_is(NO_COUNTS));
        }
    }
    /* The integers before and inside the padded one, and an end before its fifth byte. */
    const uint8_t bytes[] = {0x05, 0xff, 0xff, 0xff, 0xff, 0x1f};
    CHECK(cef_read_int(bytes, 6, 0, &value, &next, row) == CEF_OK && value == 5 && next == 1);
    CHECK(cef_read_int(bytes, 6, 2, &value, &next, row) == CEF_OK && next == 6);
    CHECK(cef_read_int(bytes, 6, 1, &value, &next, row) == CEF_NON_ZERO_INT_PADDING);
    CHECK(cef_read_int(bytes, 5, 1, &value, &next, row) == CEF_UNEXPECTED_END);
}

/* A reader moves to the end, as where the bytes end inside an integer. */
static void check_reader(void)
{
    const uint8_t bytes[] = {0x05, PADDED, 0x06};
    int32_t value = LEFT;
    size_t next = LEFT;
    size_t left = LEFT;
    uint32_t empty = LEFT;

    fill();
    CHECK(cef_unpacker_read_int(bytes, 7, 0, &value, &next, &left, &empty, row) == CEF_OK);
    CHECK(value == 5 && next == 1 && left == 6 && empty == 0 && row_is(NO_COUNTS));
    value = LEFT;
    fill();
    CHECK(cef_unpacker_read_int(bytes, 7, 1, &value, &next, &left, &empty, row) ==
          CEF_NON_ZERO_INT_PADDING);
    CHECK(value == LEFT && next == 7 && left == 0 && empty == 1 && row_is(NO_COUNTS));
    CHECK(cef_unpacker_read_int(bytes, 7, next, &value, &next, &left, &empty, row) ==
          CEF_UNEXPECTED_END);
}

/* The area is left, whatever its length; the overlong 0 behind is not counted. */
static void check_unpack(void)
{
    const uint8_t bytes[] = {0x80, 0x00, 0x05, PADDED, 0x80, 0x00};
    const size_t rooms[] = {0, 1, 2, 3, 4, 10, 20};
    uint32_t cut = LEFT;

    for (size_t i = 0; i < sizeof rooms / sizeof rooms[0]; i++) {
        fill();
        CHECK(cef_unpack(bytes, sizeof bytes, out, rooms[i], &count, &cut, row) ==
              CEF_NON_ZERO_INT_PADDING);
        CHECK(count == LEFT && cut == LEFT && ints_left(out, 0, 20) && row_is(ONE_OVERLONG));
    }
}

/* Packed tables, and the counts of the integers before the padded one. */
static const struct {
    size_t len;
    uint8_t bytes[16];
    size_t overlong;
} TABLES[] = {
    {5, {PADDED}, 0},
    {7, {PADDED, 0, 0}, 0},
    {7, {0xff, 0xff, 0xff, 0xff, 0xff, 0, 0}, 0},
    /* Before a negative size, one that is no multiple of 4, and missing offsets. */
    {6, {0x40, PADDED}, 0},
    {7, {0x05, 0x00, PADDED}, 0},
    {7, {0x00, 0x07, PADDED}, 0},
    /* As an offset, as data, and behind the table. */
    {11, {0x08, 0x01, PADDED, 0x82, 0x80, 0x08, 0x07}, 0},
    {11, {0x08, 0x01, 0x00, 0x82, 0x80, 0x08, PADDED}, 0},
    {12, {0x08, 0x01, 0x00, 0x82, 0x80, 0x08, 0x07, PADDED}, 0},
    {7, {0x00, 0x00, PADDED}, 0},
    {11, {0x80, 0x00, 0x00, PADDED, 0x80, 0x00, 0x80}, 1},
};

/* Raw and typed, with room and without. */
static void check_table(void)
{
    const size_t rooms[] = {0, 20};

    for (size_t i = 0; i < sizeof TABLES / sizeof TABLES[0]; i++) {
        const size_t *counts = TABLES[i].overlong ? ONE_OVERLONG : NO_COUNTS;
        for (size_t j = 0; j < 2; j++) {
            fill();
            CHECK(cef_table_read(TABLES[i].bytes, TABLES[i].len, out, rooms[j], scratch,
                                 CEF_SCRATCH_INTS, &count, row) == CEF_NON_ZERO_INT_PADDING);
            CHECK(refused_whole(counts));
            fill();
            CHECK(cef_snap_read(TABLES[i].bytes, TABLES[i].len, out, rooms[j], scratch,
                                CEF_SCRATCH_INTS, &count, row) == CEF_NON_ZERO_INT_PADDING);
            CHECK(refused_whole(counts));
        }
    }
}

/* A packed delta, its refusal, and the counts up to there. */
struct refused {
    size_t len;
    uint8_t bytes[16];
    uint32_t answer;
    size_t counts[CEF_WARNINGS];
};

/* Type 3 has one int; all other sizes are unknown. */
static const int32_t SIZES[] = {-1, -1, -1, 1};

static void check_refused(const struct refused *delta, size_t sizes_len)
{
    const size_t rooms[] = {0, 20};
    for (size_t i = 0; i < 2; i++) {
        fill();
        CHECK(cef_delta_read(delta->bytes, delta->len, SIZES, sizes_len, out, rooms[i], scratch,
                             CEF_SCRATCH_INTS, &count, row) == delta->answer);
        CHECK(refused_whole(delta->counts));
    }
}

/* Where an end inside the integer would be refused with 1, 3 or 4. */
static void check_delta(void)
{
    const uint32_t padded = CEF_NON_ZERO_INT_PADDING;
    const struct refused deltas[] = {
        {7, {PADDED, 0, 0}, padded, {0}},
        {7, {0, PADDED, 0}, padded, {0}},
        {7, {0, 0, PADDED}, padded, {0}},
        {9, {0x80, 0x00, 0, PADDED, 0}, padded, {[CEF_WARN_OVERLONG_INT_ENCODING] = 1}},
        /* A deleted key. */
        {8, {1, 0, 1, PADDED}, padded, {[CEF_WARN_NON_ZERO_PADDING] = 1}},
        {10, {3, 0, 0, 5, 5, PADDED}, padded, {0}},
        /* Type, id, size, data. */
        {10, {2, 0, 0, 5, 5, PADDED}, padded, {[CEF_WARN_DUPLICATE_DELETE] = 1}},
        {8, {0, 1, 0, PADDED}, padded, {0}},
        {9, {0, 1, 0, 3, PADDED}, padded, {0}},
        {10, {0, 1, 0, 3, 4, PADDED}, padded, {0}},
        {12, {0, 1, 0, 3, 4, 2, 5, PADDED}, padded, {0}},
        /* An id that is padded behind a type that is too great: both are read first. */
        {11, {0, 1, 0, 0x80, 0x80, 0x08, PADDED}, padded, {0}},
        /* Behind the last update, also where the header counts none. */
        {8, {0, 0, 0, PADDED}, padded, {0}},
        {11, {0, 1, 0, 3, 4, 0, PADDED}, padded, {0}},
        {14, {0, 2, 0, 3, 4, 0, 3, 4, 0, PADDED}, padded, {[CEF_WARN_DUPLICATE_UPDATE] = 1}},
        {12, {1, 1, 0, 5, 0, 5, 0, PADDED}, padded, {[CEF_WARN_DELETE_UPDATE] = 1}},
    };
    const struct refused known = {10, {0, 1, 0, 3, 4, PADDED}, padded, {0}};

    for (size_t i = 0; i < sizeof deltas / sizeof deltas[0]; i++)
        check_refused(&deltas[i], 0);
    check_refused(&known, 4);
}

/* What is wrong before the padded integer is refused first. */
static void check_delta_before(void)
{
    const struct refused deltas[] = {
        {6, {0x40, PADDED}, CEF_INT_OUT_OF_RANGE, {0}},
        {7, {0, 0x40, PADDED}, CEF_INT_OUT_OF_RANGE, {0}},
        {12, {0, 1, 0, 0x80, 0x80, 0x08, 0, PADDED}, CEF_TYPE_ID_RANGE, {0}},
        {10, {0, 1, 0, 3, 0x40, PADDED}, CEF_ID_RANGE, {0}},
        {11, {0, 1, 0, 3, 4, 0x40, PADDED}, CEF_NEGATIVE_SIZE, {0}},
    };
    for (size_t i = 0; i < sizeof deltas / sizeof deltas[0]; i++)
        check_refused(&deltas[i], 0);
}

/* A fifth byte of 00 is overlong and not padded: in unpacked bytes, in both tables, in a delta. */
static void check_overlong(void)
{
    const uint8_t first[] = {OVERLONG, 0x00};
    const uint8_t last[] = {0x00, 0x00, OVERLONG};
    uint32_t cut = LEFT;

    fill();
    CHECK(cef_unpack(first, 6, out, 20, &count, &cut, row) == CEF_OK);
    CHECK(count == 2 && cut == 0 && out[0] == 0 && out[1] == 0 && row_is(ONE_OVERLONG));
    fill();
    CHECK(cef_table_read(first, 6, out, 20, scratch, CEF_SCRATCH_INTS, &count, row) == CEF_OK);
    CHECK(count == 2 && out[0] == 0 && out[1] == 0 && row_is(ONE_OVERLONG));
    fill();
    CHECK(cef_snap_read(last, 7, out, 20, scratch, CEF_SCRATCH_INTS, &count, row) == CEF_OK);
    CHECK(count == 2 && row[CEF_WARN_OVERLONG_INT_ENCODING] == 1);
    CHECK(row[CEF_WARN_EXCESS_SNAP_DATA] == 1);
    fill();
    CHECK(cef_delta_read(last, 7, SIZES, 0, out, 20, scratch, CEF_SCRATCH_INTS, &count, row) ==
          CEF_OK);
    CHECK(count == 3 && row_is(ONE_OVERLONG) && ints_left(out, 3, 20));
}

/* Scratch that is too short comes first, then too many bytes. */
static void check_first(void)
{
    static uint8_t bytes[CEF_INPUT_MOST + 1];
    const size_t more = CEF_INPUT_MOST + 1;
    int32_t value = LEFT;
    size_t next = LEFT;
    uint32_t cut = LEFT;

    memset(bytes, 0xff, sizeof bytes);
    CHECK(cef_read_int(bytes, more, 0, &value, &next, row) == CEF_INPUT_TOO_LONG);
    CHECK(cef_unpack(bytes, more, out, 20, &count, &cut, row) == CEF_INPUT_TOO_LONG);
#define READ(call, len, least) call(bytes, len, out, 20, scratch, least, &count, row)
    CHECK(READ(cef_table_read, 9, CEF_SCRATCH_INTS - 1) == CEF_SCRATCH_TOO_SHORT);
    CHECK(READ(cef_table_read, more, more - 1) == CEF_SCRATCH_TOO_SHORT);
    CHECK(READ(cef_table_read, more, more) == CEF_INPUT_TOO_LONG);
    CHECK(READ(cef_table_read, more - 1, more) == CEF_NON_ZERO_INT_PADDING);
    CHECK(READ(cef_snap_read, more, more - 1) == CEF_SCRATCH_TOO_SHORT);
    CHECK(READ(cef_snap_read, more, more) == CEF_INPUT_TOO_LONG);
#undef READ
#define READ(len, least) cef_delta_read(bytes, len, SIZES, 0, out, 20, scratch, least, &count, row)
    CHECK(READ(9, CEF_SCRATCH_INTS - 1) == CEF_SCRATCH_TOO_SHORT);
    CHECK(READ(more, more - 1) == CEF_SCRATCH_TOO_SHORT);
    CHECK(READ(more, more) == CEF_INPUT_TOO_LONG);
    CHECK(READ(more - 1, more) == CEF_NON_ZERO_INT_PADDING);
#undef READ
}

/* A manager, and all that is lent to it; of the delta area so many ints. */
struct printer {
    cef_manager m;
    uint8_t parts[CEF_PART_AREA_BYTES];
    uint8_t joined[CEF_PART_AREA_BYTES];
    int32_t delta[8];
    size_t delta_len;
    int32_t area[24];
    uint32_t taken;
    cef_tick ack;
};

static struct printer printer;
static struct printer before;

/* A part of a delta against the table of tick 3, or a whole one as part 0 of 1. */
static uint32_t take(cef_tick tick, int32_t num_parts, int32_t part, const uint8_t *data,
                     size_t len)
{
    struct printer *p = &printer;
    before = printer;
    return cef_manager_snap(p->m.receiver.ticks, p->m.receiver.counts, p->m.receiver.lengths,
                            p->m.storage.ticks, p->m.storage.counts, tick, tick - 3, num_parts,
                            part, 10, data, len, SIZES, 0, p->parts, sizeof p->parts, p->joined,
                            sizeof p->joined, p->delta, p->delta_len, p->area, 24, scratch,
                            CEF_MANAGER_SCRATCH_INTS, &p->taken, &p->ack, row);
}

/* Whether store, delta area and answers are as they were. */
static int store_left(void)
{
    return memcmp(&printer.m.storage, &before.m.storage, sizeof before.m.storage) == 0 &&
           memcmp(printer.area, before.area, sizeof before.area) == 0 &&
           memcmp(printer.delta, before.delta, sizeof before.delta) == 0 &&
           printer.taken == before.taken && printer.ack == before.ack;
}

/* Whether a tick was the last one to be finished, and none is unfinished. */
static int finished(cef_tick tick)
{
    const cef_receiver *r = &printer.m.receiver;
    return r->ticks[0] == tick && r->counts[0] == 1 && r->counts[1] == 0;
}

/* Tick 3 is held and acknowledged, a table with one item of the sum 5. */
static void hold_first(void)
{
    const uint8_t bytes[] = {0, 1, 0, 1, 1, 1, 5};
    struct printer *p = &printer;

    cef_manager_new(p->m.receiver.ticks, p->m.receiver.counts, p->m.receiver.lengths,
                    p->m.storage.ticks, p->m.storage.counts);
    CHECK(cef_manager_snap_single(p->m.receiver.ticks, p->m.receiver.counts,
                                  p->m.receiver.lengths, p->m.storage.ticks, p->m.storage.counts,
                                  3, 4, 5, bytes, 7, SIZES, 0, p->parts, sizeof p->parts,
                                  p->joined, sizeof p->joined, p->delta, 8, p->area, 24, scratch,
                                  CEF_MANAGER_SCRATCH_INTS, &p->taken, &p->ack, row) == CEF_OK);
    CHECK(p->taken == 1 && p->ack == 3 && p->m.storage.counts[0] == 1);
    fill_ints(p->delta, 8);
}

static void check_messages(void)
{
    const uint8_t good[] = {0, 1, 0, 1, 1, 1, 5};
    const uint8_t padded[] = {OVERLONG, 1, 1, 1, 1, 1, PADDED};
    size_t counts[CEF_WARNINGS] = {0};

    hold_first();
    fill();
    counts[CEF_WARN_OVERLONG_INT_ENCODING] = 1;
    counts[CEF_WARN_NON_ZERO_PADDING] = 1;
    /* The delta area has no room, which is judged later. */
    printer.delta_len = 0;
    CHECK(take(4, 1, 0, padded, sizeof padded) == CEF_NON_ZERO_INT_PADDING);
    CHECK(row_is(counts) && store_left() && finished(4));
    CHECK(memcmp(printer.joined, padded, sizeof padded) == 0 && scratch[0] == 0);
    CHECK(take(4, 1, 0, good, sizeof good) == CEF_RECEIVER_OLD_DELTA && store_left());

    /* Two parts that both have bytes of the padded integer, the second one first. */
    printer.delta_len = 8;
    fill();
    CHECK(take(5, 2, 1, padded + 13, sizeof padded - 13) == CEF_OK && printer.taken == 0);
    CHECK(take(5, 2, 0, padded, 13) == CEF_NON_ZERO_INT_PADDING);
    CHECK(row_is(counts) && store_left() && finished(5));
    CHECK(memcmp(printer.joined, padded, sizeof padded) == 0);
    CHECK(take(5, 2, 0, good, sizeof good) == CEF_RECEIVER_OLD_DELTA && store_left());
    CHECK(printer.m.storage.ticks[0] == 3 && printer.m.storage.counts[1] == 1);

    /* A part is not read while another is missing. The base is still held. */
    CHECK(take(6, 2, 0, padded, sizeof padded) == CEF_OK && printer.taken == 0);
    CHECK(take(7, 1, 0, good, sizeof good) == CEF_OK && printer.taken == 1 && printer.ack == 7);
    CHECK(printer.m.storage.counts[0] == 2 && printer.m.storage.ticks[0] == 7);
}

void check_padding(void)
{
    check_int();
    check_reader();
    check_unpack();
    check_table();
    check_delta();
    check_delta_before();
    check_overlong();
    check_first();
    check_messages();
}

/* A store and a manager: a table's way in, each refusal, and what is left. */

#include "check.h"

#include <string.h>

/* A table with one item, of type 1 and id 1; and the delta that makes it of none. */
static const int32_t TABLE[] = {8, 1, 0, 65537, 5};
static const int32_t DELTA[] = {0, 1, 0, 1, 1, 1, 5};
/* The same delta packed. */
static const uint8_t PACKED[] = {0, 1, 0, 1, 1, 1, 5};

/* Where a store's rows have its numbers. */
enum { HELD, HAS_ACK, HAS_BASE };
enum { ACK, BASE };

void check_storage(void)
{
    static int32_t scratch[CEF_SCRATCH_INTS];
    int32_t ticks[2] = {7, 7};
    uint32_t counts[3] = {7, 7, 7};
    int32_t area[14] = {0};
    const int32_t held[14] = {3, 5, 8, 1, 0, 65537, 5};
    int32_t delta[8];
    size_t warnings[CEF_WARNINGS];
    cef_tick base = LEFT;
    int32_t clash = LEFT;
    cef_tick tick = LEFT;
    uint32_t end = LEFT;
    size_t count = LEFT;

    cef_storage_new(ticks, counts);
    CHECK(ticks[ACK] == 0 && ticks[BASE] == 0);
    CHECK(counts[HELD] == 0 && counts[HAS_ACK] == 0 && counts[HAS_BASE] == 0);
#define ADD(sum, from, to, room, least) \
    cef_storage_add_delta(ticks, counts, 1, sum, from, to, DELTA, 7, area, room, scratch, least, warnings)
    CHECK(ADD(5, -1, 3, 14, CEF_SCRATCH_INTS - 1) == CEF_SCRATCH_TOO_SHORT);
    CHECK(ADD(5, -1, -1, 14, CEF_SCRATCH_INTS) == CEF_STORAGE_OLD_DELTA);
    CHECK(ADD(5, 2, 3, 14, CEF_SCRATCH_INTS) == CEF_UNKNOWN_SNAP);
    CHECK(ADD(6, -1, 3, 14, CEF_SCRATCH_INTS) == CEF_INVALID_CRC);
    CHECK(ADD(5, -1, 3, 6, CEF_SCRATCH_INTS) == CEF_CAPACITY_ERROR);
    CHECK(counts[HELD] == 0 && counts[HAS_ACK] == 0);
    fill_ints(scratch, CEF_SCRATCH_INTS);
    fill_warnings(warnings);
    CHECK(ADD(5, -2, 3, 14, CEF_SCRATCH_INTS) == CEF_OK);
    CHECK(counts[HELD] == 1 && counts[HAS_ACK] == 1 && ticks[ACK] == 3);
    CHECK(only(warnings, CEF_WARN_WEIRD_NEGATIVE_DELTA_TICK));
    CHECK(memcmp(area, held, sizeof area) == 0 && scratch[0] == 0);
    CHECK(scratch[CEF_SCRATCH_INTS - 1] == 0);
#undef ADD
    CHECK(cef_storage_snap_tick(ticks, counts, area, 14, 0, &tick, &end) == CEF_OK);
    CHECK(tick == 3 && end == 0);
    CHECK(cef_storage_snap_tick(ticks, counts, area, 14, 1, &tick, &end) == CEF_OK && end == 1);
    fill_ints(delta, 8);
    CHECK(cef_storage_snap(ticks, counts, area, 14, 0, delta, 4, &count) == CEF_CAPACITY_ERROR);
    CHECK(count == LEFT && ints_left(delta, 0, 8));
    CHECK(cef_storage_snap(ticks, counts, area, 14, 0, delta, 8, &count) == CEF_OK);
    CHECK(count == 5 && memcmp(delta, TABLE, sizeof TABLE) == 0 && ints_left(delta, 5, 8));

    CHECK(cef_storage_set_delta_tick(ticks, counts, 3, area, 14, warnings) == CEF_OK);
    CHECK(counts[HAS_BASE] == 1 && ticks[BASE] == 3 && only(warnings, -1));
    /* The base's item 65537 has one int. */
    const int32_t bare[] = {4, 1, 0, 65537};
    CHECK(cef_storage_add_snap(ticks, counts, 9, bare, 4, delta, 8, area, 14, &base, &count,
                               &clash) == CEF_DELTA_DIFFERING_SIZES);
    CHECK(base == LEFT && clash == 65537 && counts[HELD] == 1);
    clash = LEFT;
#define SNAP(len, to, room) \
    cef_storage_add_snap(ticks, counts, 9, TABLE, len, delta, to, area, room, &base, &count, &clash)
    fill_ints(delta, 8);
    count = LEFT;
    CHECK(SNAP(4, 8, 14) == CEF_NOT_IN_FORM && SNAP(5, 6, 14) == CEF_CAPACITY_ERROR);
    CHECK(SNAP(5, 7, 13) == CEF_CAPACITY_ERROR && ints_left(delta, 0, 8));
    CHECK(base == LEFT && count == LEFT && clash == LEFT && counts[HELD] == 1);
    CHECK(SNAP(5, 7, 14) == CEF_OK && base == 3 && count == 7 && counts[HELD] == 2);
    CHECK(delta[1] == 1 && delta[6] == 0 && ints_left(delta, 7, 8));
#undef SNAP
    cef_storage_reset(ticks, counts, area, 14);
    CHECK(counts[HELD] == 0 && counts[HAS_ACK] == 0 && counts[HAS_BASE] == 1 && area[0] == 0);
    area[13] = 1;
    CHECK(cef_storage_set_delta_tick(ticks, counts, 3, area, 14, warnings) == CEF_NOT_IN_FORM);
    CHECK(counts[HAS_BASE] == 1 && area[13] == 1);
}

void check_manager(void)
{
    static uint8_t parts[CEF_PART_AREA_BYTES];
    static uint8_t joined[CEF_PART_AREA_BYTES];
    static int32_t scratch[CEF_MANAGER_SCRATCH_INTS];
    cef_receiver r;
    int32_t ticks[2] = {7, 7};
    uint32_t counts[3] = {7, 7, 7};
    int32_t area[14] = {0};
    const int32_t held[14] = {3, 5, 8, 1, 0, 65537, 5};
    int32_t delta[8];
    size_t warnings[CEF_WARNINGS];
    uint32_t taken = LEFT;
    cef_tick ack = LEFT;

    cef_manager_new(r.ticks, r.counts, r.lengths, ticks, counts);
    fill_ints(delta, 8);
#define LENT(least)                                                                           \
    parts, sizeof parts, joined, sizeof joined, delta, 8, area, 14, scratch, least, &taken, &ack, \
        warnings
#define SNAP(part, sum, from, len, least)                                                    \
    cef_manager_snap(r.ticks, r.counts, r.lengths, ticks, counts, 3, 4, 2, part, sum,        \
                     PACKED + from, len, DELTA, 0, LENT(least))
    CHECK(SNAP(1, 5, 4, 3, CEF_MANAGER_SCRATCH_INTS - 1) == CEF_SCRATCH_TOO_SHORT);
    CHECK(taken == LEFT);
    CHECK(SNAP(1, 5, 4, 3, CEF_MANAGER_SCRATCH_INTS) == CEF_OK && only(warnings, -1));
    CHECK(taken == 0 && ack == LEFT && counts[HELD] == 0);
    CHECK(SNAP(1, 5, 4, 3, CEF_MANAGER_SCRATCH_INTS) == CEF_DUPLICATE_PART);
    CHECK(only(warnings, -1) && ints_left(delta, 0, 8));
    CHECK(SNAP(1, 6, 4, 3, CEF_MANAGER_SCRATCH_INTS) == CEF_DUPLICATE_PART);
    CHECK(only(warnings, CEF_WARN_DIFFERING_ATTRIBUTES));
    CHECK(SNAP(0, 5, 0, 4, CEF_MANAGER_SCRATCH_INTS) == CEF_OK && only(warnings, -1));
    CHECK(taken == 1 && ack == 3 && counts[HELD] == 1);
    CHECK(memcmp(joined, PACKED, 7) == 0 && memcmp(delta, DELTA, sizeof DELTA) == 0);
    CHECK(memcmp(area, held, sizeof area) == 0 && scratch[0] == 0 && delta[7] == LEFT);
#undef SNAP
    CHECK(cef_manager_snap_single(r.ticks, r.counts, r.lengths, ticks, counts, 4, 1, 11, PACKED, 7,
                                  DELTA, 0, LENT(CEF_MANAGER_SCRATCH_INTS)) == CEF_INVALID_CRC);
    CHECK(counts[HELD] == 1 && counts[HAS_ACK] == 0);
    CHECK(cef_manager_snap_empty(r.ticks, r.counts, r.lengths, ticks, counts, 5, 2, LENT(CEF_MANAGER_SCRATCH_INTS)) ==
          CEF_OK);
    CHECK(taken == 1 && ack == 5 && counts[HELD] == 2 && counts[HAS_ACK] == 1 && ticks[ACK] == 5);
    CHECK(delta[0] == 0 && delta[1] == 0 && delta[3] == 1);
    cef_manager_reset(r.ticks, r.counts, r.lengths, ticks, counts, area, 14);
    CHECK(counts[HELD] == 0 && counts[HAS_ACK] == 0 && r.counts[0] == 0 && area[0] == 0);
    counts[HELD] = 1;
    CHECK(cef_manager_snap_empty(r.ticks, r.counts, r.lengths, ticks, counts, 5, 2, LENT(0)) ==
          CEF_NOT_IN_FORM);
#undef LENT
}

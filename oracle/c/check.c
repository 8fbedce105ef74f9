/*
 * A C program over include/cefdugar.h and libcefdugar.a: the marked cases of
 * docs/FORMAT.md and each refusal, by every function.
 */

#include "check.h"

#include <string.h>

int checks = 0;
int failures = 0;

struct marked {
    int32_t value;
    size_t len;
    uint8_t bytes[CEF_INT_BYTES];
};

static const struct marked MARKED[] = {
    {0, 1, {0x00}},
    {-1, 1, {0x40}},
    {63, 1, {0x3f}},
    {64, 2, {0x80, 0x01}},
    {-64, 1, {0x7f}},
    {-65, 2, {0xc0, 0x01}},
    {INT32_MAX, 5, {0xbf, 0xff, 0xff, 0xff, 0x0f}},
    {INT32_MIN, 5, {0xff, 0xff, 0xff, 0xff, 0x0f}},
};

#define MARKED_COUNT (sizeof MARKED / sizeof MARKED[0])

/* Whether all counts are 0, but for this one of OverlongIntEncoding. */
static int counted(const size_t warnings[CEF_WARNINGS], size_t overlong)
{
    int right = 1;
    for (int i = 0; i < CEF_WARNINGS; i++)
        right = right && warnings[i] == (i == CEF_WARN_OVERLONG_INT_ENCODING ? overlong : 0);
    return right;
}

static void check_read(void)
{
    int32_t value;
    size_t next;
    size_t warnings[CEF_WARNINGS];

    for (size_t i = 0; i < MARKED_COUNT; i++) {
        const struct marked *m = &MARKED[i];
        fill_warnings(warnings);
        CHECK(cef_read_int(m->bytes, m->len, 0, &value, &next, warnings) == CEF_OK);
        CHECK(value == m->value && next == m->len && counted(warnings, 0));

        value = LEFT;
        next = LEFT;
        fill_warnings(warnings);
        CHECK(cef_read_int(m->bytes, m->len - 1, 0, &value, &next, warnings) ==
              CEF_UNEXPECTED_END);
        CHECK(value == LEFT && next == LEFT && counted(warnings, 0));
        CHECK(cef_read_int(m->bytes, m->len, SIZE_MAX, &value, &next, warnings) ==
              CEF_UNEXPECTED_END);
        CHECK(value == LEFT && next == LEFT && counted(warnings, 0));
    }

    const uint8_t overlong[] = {0x80, 0x00};
    fill_warnings(warnings);
    CHECK(cef_read_int(overlong, sizeof overlong, 0, &value, &next, warnings) == CEF_OK);
    CHECK(value == 0 && next == 2 && counted(warnings, 1));
}

static void check_readers(void)
{
    int32_t value;
    size_t next;
    size_t left;
    uint32_t empty;
    size_t warnings[CEF_WARNINGS];

    /* 64, an overlong 0, and an integer that is cut. */
    const uint8_t bytes[] = {0x80, 0x01, 0x80, 0x00, 0xff};
    fill_warnings(warnings);
    CHECK(cef_unpacker_read_int(bytes, sizeof bytes, 0, &value, &next, &left, &empty, warnings) ==
          CEF_OK);
    CHECK(value == 64 && next == 2 && left == 3 && empty == 0 && counted(warnings, 0));
    CHECK(cef_unpacker_read_int(bytes, sizeof bytes, next, &value, &next, &left, &empty,
                                warnings) == CEF_OK);
    CHECK(value == 0 && next == 4 && left == 1 && empty == 0 && counted(warnings, 1));
    value = LEFT;
    CHECK(cef_unpacker_read_int(bytes, sizeof bytes, next, &value, &next, &left, &empty,
                                warnings) == CEF_UNEXPECTED_END);
    CHECK(value == LEFT && next == 5 && left == 0 && empty == 1 && counted(warnings, 0));

    const int32_t ints[] = {-1, INT32_MIN};
    CHECK(cef_int_unpacker_read_int(ints, 2, 1, &value, &next, &left, &empty) == CEF_OK);
    CHECK(value == INT32_MIN && next == 2 && left == 0 && empty == 1);
    CHECK(cef_int_unpacker_read_int(ints, 2, SIZE_MAX, &value, &next, &left, &empty) ==
          CEF_UNEXPECTED_END);
    CHECK(value == INT32_MIN && next == 2 && left == 0 && empty == 1);
}

/* The longest input, and one entry more, which every call that reads refuses. */
static void check_longest(void)
{
    static uint8_t bytes[CEF_INPUT_MOST + 1];
    static int32_t ints[CEF_INPUT_MOST + 1];
    static int32_t out[CEF_INPUT_MOST + 1];
    int32_t value = LEFT;
    size_t next = LEFT;
    size_t left = LEFT;
    uint32_t empty = LEFT;
    size_t count = LEFT;
    uint32_t cut = LEFT;
    size_t warnings[CEF_WARNINGS];
    const size_t most = CEF_INPUT_MOST;

    memset(bytes, 1, sizeof bytes);
    fill_warnings(warnings);
    CHECK(cef_read_int(bytes, most + 1, 3, &value, &next, warnings) == CEF_INPUT_TOO_LONG);
    CHECK(value == LEFT && next == LEFT && counted(warnings, 0));
    fill_warnings(warnings);
    CHECK(cef_unpacker_read_int(bytes, most + 1, 3, &value, &next, &left, &empty, warnings) ==
          CEF_INPUT_TOO_LONG);
    CHECK(value == LEFT && next == LEFT && left == LEFT && empty == LEFT);
    CHECK(counted(warnings, 0));
    CHECK(cef_int_unpacker_read_int(ints, most + 1, 3, &value, &next, &left, &empty) ==
          CEF_INPUT_TOO_LONG);
    CHECK(value == LEFT && next == LEFT && left == LEFT && empty == LEFT);
    fill_warnings(warnings);
    CHECK(cef_unpack(bytes, most + 1, out, most + 1, &count, &cut, warnings) ==
          CEF_INPUT_TOO_LONG);
    CHECK(count == LEFT && cut == LEFT && out[0] == 0 && out[most] == 0);
    CHECK(counted(warnings, 0));

    CHECK(cef_read_int(bytes, most, 3, &value, &next, warnings) == CEF_OK && next == 4);
    CHECK(cef_unpacker_read_int(bytes, most, 3, &value, &next, &left, &empty, warnings) == CEF_OK);
    CHECK(value == 1 && left == most - 4 && empty == 0);
    CHECK(cef_int_unpacker_read_int(ints, most, most - 1, &value, &next, &left, &empty) == CEF_OK);
    CHECK(value == 0 && next == most && empty == 1);
    CHECK(cef_unpack(bytes, most, out, most, &count, &cut, warnings) == CEF_OK);
    CHECK(count == most && cut == 0 && out[most - 1] == 1 && out[most] == 0);
}

static void check_write(void)
{
    uint8_t out[8];
    uint8_t expected[8];
    size_t next;

    for (size_t i = 0; i < MARKED_COUNT; i++) {
        const struct marked *m = &MARKED[i];
        memset(out, 0xaa, sizeof out);
        memset(expected, 0xaa, sizeof expected);
        next = LEFT;
        CHECK(cef_write_int(out, 1 + m->len - 1, 1, m->value, &next) == CEF_CAPACITY_ERROR);
        CHECK(cef_write_int(out, 1, SIZE_MAX, m->value, &next) == CEF_CAPACITY_ERROR);
        CHECK(next == LEFT && memcmp(out, expected, sizeof out) == 0);

        memcpy(expected + 1, m->bytes, m->len);
        CHECK(cef_write_int(out, 1 + m->len, 1, m->value, &next) == CEF_OK);
        CHECK(next == 1 + m->len && memcmp(out, expected, sizeof out) == 0);
    }
}

static void check_unpack(void)
{
    /* All marked cases, an overlong int, and one that is cut. */
    uint8_t src[64];
    size_t len = 0;
    for (size_t i = 0; i < MARKED_COUNT; i++)
        CHECK(cef_write_int(src, sizeof src, len, MARKED[i].value, &len) == CEF_OK);
    const uint8_t rest[] = {0x80, 0x00, 0xff};
    memcpy(src + len, rest, sizeof rest);
    len += sizeof rest;

    int32_t out[MARKED_COUNT + 2];
    size_t count = LEFT;
    uint32_t cut = LEFT;
    size_t warnings[CEF_WARNINGS];
    fill_ints(out, MARKED_COUNT + 2);

    fill_warnings(warnings);
    CHECK(cef_unpack(src, len, out, MARKED_COUNT, &count, &cut, warnings) ==
          CEF_CAPACITY_ERROR);
    CHECK(count == LEFT && cut == LEFT && counted(warnings, 1));
    CHECK(ints_left(out, 0, MARKED_COUNT + 2));

    fill_warnings(warnings);
    CHECK(cef_unpack(src, len, out, MARKED_COUNT + 2, &count, &cut, warnings) == CEF_OK);
    CHECK(count == MARKED_COUNT + 1 && cut == 1 && counted(warnings, 1));
    for (size_t i = 0; i < MARKED_COUNT; i++)
        CHECK(out[i] == MARKED[i].value);
    CHECK(out[MARKED_COUNT] == 0 && out[MARKED_COUNT + 1] == LEFT);

    fill_warnings(warnings);
    CHECK(cef_unpack(src, 0, out, 0, &count, &cut, warnings) == CEF_OK);
    CHECK(count == 0 && cut == 0 && counted(warnings, 0));
}

/* Whether all counts are 0, but for this one of ExcessSnapData. */
static int excess(const size_t warnings[CEF_WARNINGS], size_t count)
{
    int right = 1;
    for (int i = 0; i < CEF_WARNINGS; i++)
        right = right && warnings[i] == (i == CEF_WARN_EXCESS_SNAP_DATA ? count : 0);
    return right;
}

/* The worked example of a packed table: one item of type 1 and id 2 that holds 7. */
static const uint8_t TABLE_BYTES[] = {0x08, 0x01, 0x00, 0x82, 0x80, 0x08, 0x07};
static const int32_t TABLE_INTS[] = {8, 1, 0, 65538, 7};

static int32_t scratch[CEF_SCRATCH_INTS];
static int32_t area[CEF_TABLE_INTS + 8];
static int32_t data[CEF_TABLE_INTS];
static int32_t longest[CEF_DELTA_INTS];

static void check_table_read(void)
{
    int32_t out[8];
    size_t count = LEFT;
    size_t warnings[CEF_WARNINGS];

    fill_ints(out, 8);
    fill_ints(scratch, CEF_SCRATCH_INTS);
    fill_warnings(warnings);
    CHECK(cef_table_read(TABLE_BYTES, 7, out, 8, scratch, CEF_SCRATCH_INTS - 1, &count,
                         warnings) == CEF_SCRATCH_TOO_SHORT);
    CHECK(scratch[0] == 0 && scratch[CEF_SCRATCH_INTS - 2] == 0);
    CHECK(scratch[CEF_SCRATCH_INTS - 1] == LEFT);
    CHECK(count == LEFT && ints_left(out, 0, 8) && excess(warnings, 0));
    CHECK(cef_table_read(TABLE_BYTES, 7, out, 4, scratch, CEF_SCRATCH_INTS, &count, warnings) ==
          CEF_CAPACITY_ERROR);
    CHECK(cef_table_read(TABLE_BYTES, 6, out, 8, scratch, CEF_SCRATCH_INTS, &count, warnings) ==
          CEF_ITEMS_UNPACKING);
    CHECK(cef_table_read(TABLE_BYTES, 0, out, 8, scratch, CEF_SCRATCH_INTS, &count, warnings) ==
          CEF_UNEXPECTED_END);
    CHECK(count == LEFT && ints_left(out, 0, 8) && excess(warnings, 0));
    fill_ints(scratch, CEF_SCRATCH_INTS);
    CHECK(cef_table_read(TABLE_BYTES, 7, out, 5, scratch, CEF_SCRATCH_INTS, &count, warnings) ==
          CEF_OK);
    CHECK(count == 5 && memcmp(out, TABLE_INTS, sizeof TABLE_INTS) == 0);
    CHECK(ints_left(out, 5, 8) && excess(warnings, 0) && scratch[CEF_SCRATCH_INTS - 1] == 0);
    /* Bytes that the end cuts off, and ints behind the table. */
    const uint8_t more[] = {0x00, 0x00, 0x05, 0x80};
    CHECK(cef_table_read(more, 4, out, 8, scratch, CEF_SCRATCH_INTS, &count, warnings) == CEF_OK);
    CHECK(count == 2 && out[0] == 0 && out[1] == 0 && out[2] == 0 && excess(warnings, 2));

    fill_ints(out, 8);
    count = LEFT;
    const struct {
        size_t len;
        int32_t ints[10];
        uint32_t answer;
    } refused[] = {
        {0, {0}, CEF_UNEXPECTED_END},
        {2, {-4, 0}, CEF_INT_OUT_OF_RANGE},
        {2, {0, 1}, CEF_OFFSETS_UNPACKING},
        {3, {4, 0, 9}, CEF_INVALID_OFFSET},
        {2, {2, 0}, CEF_INVALID_OFFSET},
        {3, {8, 1, 0}, CEF_ITEMS_UNPACKING},
        {6, {8, 2, 0, 4, 1, 1}, CEF_DUPLICATE_KEY},
    };
    for (size_t i = 0; i < sizeof refused / sizeof refused[0]; i++) {
        fill_warnings(warnings);
        CHECK(cef_table_read_from_ints(refused[i].ints, refused[i].len, out, 8, &count,
                                       warnings) == refused[i].answer);
        CHECK(count == LEFT && ints_left(out, 0, 8));
    }
    CHECK(cef_table_read_from_ints(TABLE_INTS, 5, out, 4, &count, warnings) ==
          CEF_CAPACITY_ERROR);
    CHECK(count == LEFT && ints_left(out, 0, 8));
    /* Two items in the wrong order, and an int behind them. */
    const int32_t turned[] = {12, 2, 0, 8, -1, 5, 3, 99};
    const int32_t right[] = {12, 2, 0, 4, 3, -1, 5};
    CHECK(cef_table_read_from_ints(turned, 8, out, 8, &count, warnings) == CEF_OK);
    CHECK(count == 7 && memcmp(out, right, sizeof right) == 0 && out[7] == LEFT);
    CHECK(excess(warnings, 1));
}

static void check_table_calls(void)
{
    /* Keys 3, -1 and the least: signed, the last comes first. */
    const int32_t table[] = {24, 3, 0, 8, 12, 3, 40, INT32_MIN, -1, 5, INT32_MAX, 12345};
    const size_t len = 12;
    const int32_t keys[] = {INT32_MIN, -1, 3};
    const size_t lens[] = {0, 2, 1};
    int32_t out[16];
    uint8_t bytes[64];
    uint8_t packed[64];
    size_t count = LEFT;
    size_t size = 0;
    uint32_t flag = LEFT;
    int32_t value = LEFT;

    fill_ints(out, 16);
    CHECK(cef_table_num_items(table, 10, &count) == CEF_NOT_IN_FORM);
    CHECK(cef_table_write_to_ints(table, 10, out, 16, &count) == CEF_NOT_IN_FORM);
    CHECK(cef_table_write(table, 10, bytes, 64, &count) == CEF_NOT_IN_FORM);
    CHECK(cef_table_has_item(table, 10, 0, 3, &flag) == CEF_NOT_IN_FORM);
    CHECK(cef_table_crc(table, 10, &value) == CEF_NOT_IN_FORM);
    CHECK(cef_table_walk_key(table, 10, 0, &value, &flag) == CEF_NOT_IN_FORM);
    CHECK(cef_table_item(table, 10, 0, 3, out, 16, &count) == CEF_NOT_IN_FORM);
    CHECK(cef_table_walk_item(table, 10, 0, out, 16, &count) == CEF_NOT_IN_FORM);
    CHECK(cef_table_write_to_ints(table, len, out, 10, &count) == CEF_CAPACITY_ERROR);
    CHECK(count == LEFT && flag == LEFT && value == LEFT && ints_left(out, 0, 16));

    CHECK(cef_table_num_items(table, len, &count) == CEF_OK && count == 3);
    CHECK(cef_table_write_to_ints(table, len, out, 11, &count) == CEF_OK && count == 11);
    CHECK(memcmp(out, table, 11 * sizeof table[0]) == 0 && ints_left(out, 11, 16));
    for (size_t i = 0; i < 11; i++)
        CHECK(cef_write_int(packed, sizeof packed, size, table[i], &size) == CEF_OK);
    count = LEFT;
    CHECK(cef_table_write(table, len, bytes, size - 1, &count) == CEF_CAPACITY_ERROR);
    CHECK(count == LEFT);
    CHECK(cef_table_write(table, len, bytes, size, &count) == CEF_OK && count == size);
    CHECK(memcmp(bytes, packed, size) == 0);
    CHECK(cef_table_crc(table, len, &value) == CEF_OK);
    CHECK(value == INT32_MIN + 44);

    for (size_t i = 0; i < 3; i++) {
        fill_ints(out, 16);
        CHECK(cef_table_walk_key(table, len, i, &value, &flag) == CEF_OK);
        CHECK(value == keys[i] && flag == 0);
        CHECK(cef_table_walk_item(table, len, i, out, 16, &count) == CEF_OK);
        CHECK(count == lens[i] && ints_left(out, lens[i], 16));
        const uint32_t key = (uint32_t)keys[i];
        CHECK(cef_table_has_item(table, len, (uint16_t)(key >> 16), (uint16_t)key, &flag) ==
              CEF_OK);
        CHECK(flag == 1);
        int32_t same[2];
        CHECK(cef_table_item(table, len, (uint16_t)(key >> 16), (uint16_t)key, same, 2, &count) ==
              CEF_OK);
        CHECK(count == lens[i] && memcmp(same, out, count * sizeof same[0]) == 0);
    }
    value = LEFT;
    CHECK(cef_table_walk_key(table, len, 3, &value, &flag) == CEF_OK && flag == 1);
    CHECK(cef_table_walk_key(table, len, SIZE_MAX, &value, &flag) == CEF_OK && flag == 1);
    CHECK(value == LEFT);
    CHECK(cef_table_has_item(table, len, 0, 4, &flag) == CEF_OK && flag == 0);
    CHECK(cef_table_item(table, len, 0, 4, out, 0, &count) == CEF_OK && count == 0);
    count = LEFT;
    CHECK(cef_table_item(table, len, 0xffff, 0xffff, out, 1, &count) == CEF_CAPACITY_ERROR);
    CHECK(cef_table_walk_item(table, len, 1, out, 1, &count) == CEF_CAPACITY_ERROR);
    CHECK(count == LEFT);
}

static void check_table_add(void)
{
    size_t count = LEFT;
    const size_t len = CEF_TABLE_INTS + 8;

    fill_ints(area, len);
    CHECK(cef_table_add_item(area, len, 1, 2, data, 0, &count) == CEF_NOT_IN_FORM);
    CHECK(cef_table_empty(area, 1, &count) == CEF_CAPACITY_ERROR);
    CHECK(count == LEFT && ints_left(area, 0, len));
    CHECK(cef_table_empty(area, len, &count) == CEF_OK && count == 2);
    CHECK(area[0] == 0 && area[1] == 0 && ints_left(area, 2, len));

    const int32_t seven = 7;
    count = LEFT;
    CHECK(cef_table_add_item(area, 4, 1, 2, &seven, 1, &count) == CEF_CAPACITY_ERROR);
    CHECK(count == LEFT && area[1] == 0 && ints_left(area, 2, len));
    CHECK(cef_table_add_item(area, 5, 1, 2, &seven, 1, &count) == CEF_OK && count == 5);
    CHECK(memcmp(area, TABLE_INTS, sizeof TABLE_INTS) == 0 && ints_left(area, 5, len));
    count = LEFT;
    CHECK(cef_table_add_item(area, len, 1, 2, &seven, 1, &count) == CEF_DUPLICATE_KEY);
    CHECK(count == LEFT && memcmp(area, TABLE_INTS, sizeof TABLE_INTS) == 0);

    /* 1,024 items fit, 1,025 do not. */
    CHECK(cef_table_empty(area, len, &count) == CEF_OK);
    for (uint16_t id = 0; id < CEF_TABLE_ITEMS; id++)
        CHECK(cef_table_add_item(area, len, 0x8000, id, data, 0, &count) == CEF_OK);
    CHECK(count == 2 + 2 * CEF_TABLE_ITEMS);
    CHECK(cef_table_add_item(area, len, 3, 3, data, 0, &count) == CEF_TOO_MANY_ITEMS);
    CHECK(cef_table_add_item(area, len, 0x8000, 3, data, 0, &count) == CEF_DUPLICATE_KEY);

    /* One item holds 16,380 ints, not 16,381. */
    CHECK(cef_table_empty(area, len, &count) == CEF_OK);
    CHECK(cef_table_add_item(area, len, 3, 3, data, 16381, &count) == CEF_TOO_LONG_SNAP);
    CHECK(count == 2);
    CHECK(cef_table_add_item(area, len, 3, 3, data, 16380, &count) == CEF_OK);
    CHECK(count == CEF_TABLE_INTS);
}

/*
 * Two rules for ingredient 5 of equal priority, of the types 1 and 0x8000, and
 * between them an item of type 2 that is too short for a rule.
 */
static const int32_t RULES[] = {44, 3,      0, 16,        24, 65537, 5,  -1,
                                10, 131072, 5, INT32_MIN, 5,  -1,    20, 9};

/* The short name and the allergen in bold. */
static const int32_t LABELS[] = {32, 2, 0, 16, 65537, 7, 5, 100, -2147483647, 7, 5, 200};

static void check_rules_refused(void)
{
    const uint16_t types[] = {1, 2, 0x8000};
    uint32_t found = LEFT;
    int32_t key = LEFT;
    int32_t action = LEFT;

    CHECK(cef_rule_winner(RULES, 0, types, 0, 5, &found, &key, &action) == CEF_NOT_IN_FORM);
    CHECK(cef_rule_winner(RULES, 15, types, 1, 5, &found, &key, &action) == CEF_NOT_IN_FORM);
    CHECK(cef_rule_winner(RULES, 15, types, 3, 5, &found, &key, &action) == CEF_NOT_IN_FORM);
    CHECK(cef_rule_winner(RULES, 16, types, 3, 5, &found, &key, &action) == CEF_SHORT_RULE);
    CHECK(cef_rule_winner(RULES, 16, types, 3, 6, &found, &key, &action) == CEF_SHORT_RULE);
    CHECK(cef_rule_winner(RULES, 16, types + 1, 1, 6, &found, &key, &action) == CEF_SHORT_RULE);
    CHECK(found == LEFT && key == LEFT && action == LEFT);
}

static void check_rules(void)
{
    const uint16_t types[] = {0x8000, 1, 1, 0, 3};
    int32_t rules[16];
    uint32_t found = LEFT;
    int32_t key = LEFT;
    int32_t action = LEFT;

    /* None for the ingredient, of these types, or of no type. */
    CHECK(cef_rule_winner(RULES, 16, types, 5, 6, &found, &key, &action) == CEF_OK && found == 0);
    found = LEFT;
    CHECK(cef_rule_winner(RULES, 16, types + 3, 2, 5, &found, &key, &action) == CEF_OK);
    CHECK(found == 0);
    found = LEFT;
    CHECK(cef_rule_winner(RULES, 16, types, 0, 5, &found, &key, &action) == CEF_OK && found == 0);
    CHECK(key == LEFT && action == LEFT);

    CHECK(cef_rule_winner(RULES, 16, types, 5, 5, &found, &key, &action) == CEF_OK && found == 1);
    CHECK(key == INT32_MIN && action == 20);
    CHECK(cef_rule_winner(RULES, 16, types + 1, 2, 5, &found, &key, &action) == CEF_OK);
    CHECK(found == 1 && key == 65537 && action == 10);

    /* The example of README. */
    CHECK(cef_rule_winner(LABELS, 12, types, 2, 7, &found, &key, &action) == CEF_OK && found == 1);
    CHECK(key == -2147483647 && action == 200);

    /* The first with a higher priority, then the last. */
    memcpy(rules, RULES, sizeof rules);
    rules[7] = 0;
    CHECK(cef_rule_winner(rules, 16, types, 5, 5, &found, &key, &action) == CEF_OK && found == 1);
    CHECK(key == 65537 && action == 10);
    rules[13] = INT32_MAX;
    CHECK(cef_rule_winner(rules, 16, types, 5, 5, &found, &key, &action) == CEF_OK && found == 1);
    CHECK(key == INT32_MIN && action == 20);
}

static void check_delta_create(void)
{
    /* Keys 3, 65537 and -1 become 3, 65538 and -1. */
    const int32_t base[] = {24, 3, 0, 8, 16, 3, 40, 65537, 1, -1, 5, 777};
    const int32_t target[] = {24, 3, 0, 8, 16, 3, 41, 65538, 7, -1, INT32_MIN};
    const int32_t delta[] = {1, 3, 0, 65537, 65535, 65535, 1, INT32_MAX - 4, 0,
                             3, 1, 1, 1,     2,     1,     7};
    const size_t len = 16;
    int32_t out[20];
    size_t count = LEFT;
    int32_t clash = LEFT;

    fill_ints(out, 20);
    CHECK(cef_delta_clear(out, 2, &count) == CEF_CAPACITY_ERROR);
    CHECK(cef_delta_create(base, 10, target, 11, out, 20, &count, &clash) == CEF_NOT_IN_FORM);
    CHECK(cef_delta_create(base, 11, target, 10, out, 20, &count, &clash) == CEF_NOT_IN_FORM);
    CHECK(cef_delta_create(base, 12, target, 11, out, len - 1, &count, &clash) ==
          CEF_CAPACITY_ERROR);
    CHECK(count == LEFT && clash == LEFT && ints_left(out, 0, 20));
    CHECK(cef_delta_create(base, 12, target, 11, out, 20, &count, &clash) == CEF_OK);
    CHECK(count == len && clash == LEFT && memcmp(out, delta, sizeof delta) == 0);
    CHECK(ints_left(out, len, 20));
    CHECK(cef_delta_clear(out, 3, &count) == CEF_OK && count == 3);
    CHECK(out[0] == 0 && out[1] == 0 && out[2] == 0 && out[3] == delta[3]);

    /* The key -1 with one int and with none, also where there is no room. */
    const int32_t other[] = {4, 1, 0, -1};
    for (size_t room = 0; room < 20; room++) {
        fill_ints(out, 20);
        count = LEFT;
        clash = LEFT;
        CHECK(cef_delta_create(base, 11, other, 4, out, room, &count, &clash) ==
              CEF_DELTA_DIFFERING_SIZES);
        CHECK(count == LEFT && clash == -1 && ints_left(out, 0, 20));
    }

    /* All three keys clash: the least is told, read as unsigned, whichever is the base. */
    const int32_t shorter[] = {12, 3, 0, 4, 8, 3, 65537, -1};
    for (int turned = 0; turned < 2; turned++) {
        count = LEFT;
        clash = LEFT;
        CHECK(cef_delta_create(turned ? shorter : base, turned ? 8 : 11, turned ? base : shorter,
                               turned ? 11 : 8, out, 20, &count,
                               &clash) == CEF_DELTA_DIFFERING_SIZES);
        CHECK(count == LEFT && clash == 3);
    }

    /* Two full tables without a common key make the longest delta. */
    for (uint16_t side = 0; side < 2; side++) {
        CHECK(cef_table_empty(side ? scratch : area, CEF_TABLE_INTS, &count) == CEF_OK);
        for (uint16_t id = 0; id < CEF_TABLE_ITEMS; id++)
            CHECK(cef_table_add_item(side ? scratch : area, CEF_TABLE_INTS, side, id, data,
                                     id < 1022 ? 14 : 13, &count) == CEF_OK);
    }
    CHECK(count == CEF_TABLE_INTS);
    count = LEFT;
    CHECK(cef_delta_create(area, CEF_TABLE_INTS, scratch, CEF_TABLE_INTS, longest,
                           CEF_DELTA_INTS - 1, &count, &clash) == CEF_CAPACITY_ERROR);
    CHECK(count == LEFT);
    CHECK(cef_delta_create(area, CEF_TABLE_INTS, scratch, CEF_TABLE_INTS, longest,
                           CEF_DELTA_INTS, &count, &clash) == CEF_OK);
    CHECK(count == CEF_DELTA_INTS);
}

static void check_delta_write(void)
{
    /* Key -1 goes; type 1 gets two ints, type 2 none, type 9 one. */
    const int32_t delta[] = {1, 3, 0, -1, 1, 4, 2, 70, -70, 2, 4, 0, 9, 9, 1, 5, 777};
    const int32_t none[] = {1, 3, 0, -1, 1, 4, 2, 70, -70, 2, 4, 0, 9, 9, 1, 5};
    const int32_t known[] = {1, 3, 0, -1, 1, 4, 70, -70, 2, 4, 9, 9, 1, 5};
    const int32_t right[] = {7, 2, 0, 7};
    const int32_t unknown[] = {7, -1, INT32_MIN};
    const int32_t wrong[] = {7, 2, 1};
    const struct {
        const int32_t *sizes;
        size_t sizes_len;
        const int32_t *ints;
        size_t len;
    } written[] = {{right, 0, none, 16}, {unknown, 3, none, 16}, {right, 4, known, 14}};
    int32_t out[20];
    uint8_t bytes[40];
    uint8_t packed[40];
    size_t count = LEFT;

    for (size_t i = 0; i < 3; i++) {
        const int32_t *sizes = written[i].sizes;
        const size_t sizes_len = written[i].sizes_len;
        const size_t len = written[i].len;
        fill_ints(out, 20);
        count = LEFT;
        CHECK(cef_delta_write_to_ints(delta, 17, sizes, sizes_len, out, len - 1, &count) ==
              CEF_CAPACITY_ERROR);
        CHECK(cef_delta_write_to_ints(delta, 15, sizes, sizes_len, out, 20, &count) ==
              CEF_NOT_IN_FORM);
        CHECK(count == LEFT && ints_left(out, 0, 20));
        CHECK(cef_delta_write_to_ints(delta, 17, sizes, sizes_len, out, 20, &count) == CEF_OK);
        CHECK(count == len && ints_left(out, len, 20));
        CHECK(memcmp(out, written[i].ints, len * sizeof out[0]) == 0);

        size_t size = 0;
        memset(packed, 0xaa, sizeof packed);
        for (size_t j = 0; j < len; j++)
            CHECK(cef_write_int(packed, sizeof packed, size, out[j], &size) == CEF_OK);
        memset(bytes, 0xaa, sizeof bytes);
        count = LEFT;
        CHECK(cef_delta_write(delta, 17, sizes, sizes_len, bytes, size - 1, &count) ==
              CEF_CAPACITY_ERROR);
        CHECK(cef_delta_write(delta, 15, sizes, sizes_len, bytes, 40, &count) == CEF_NOT_IN_FORM);
        CHECK(count == LEFT && bytes[0] == 0xaa);
        CHECK(cef_delta_write(delta, 17, sizes, sizes_len, bytes, 40, &count) == CEF_OK);
        CHECK(count == size && memcmp(bytes, packed, sizeof packed) == 0);
    }
    /* A size that differs comes before room that lacks, and behind the form. */
    fill_ints(out, 20);
    memset(bytes, 0xaa, sizeof bytes);
    count = LEFT;
    CHECK(cef_delta_write_to_ints(delta, 17, wrong, 3, out, 0, &count) == CEF_KNOWN_SIZE_DIFFERS);
    CHECK(cef_delta_write_to_ints(delta, 15, wrong, 3, out, 20, &count) == CEF_NOT_IN_FORM);
    CHECK(cef_delta_write(delta, 17, wrong, 3, bytes, 0, &count) == CEF_KNOWN_SIZE_DIFFERS);
    CHECK(cef_delta_write(delta, 15, wrong, 3, bytes, 40, &count) == CEF_NOT_IN_FORM);
    CHECK(count == LEFT && ints_left(out, 0, 20) && bytes[0] == 0xaa);
}

/* Both calls on the same ints: their answer, the delta or nothing, the kind of warning or none. */
static void check_delta_reads(const int32_t *src, size_t src_len, const int32_t *sizes,
                              size_t sizes_len, uint32_t answer, const int32_t *delta,
                              size_t room, size_t len, int kind)
{
    const size_t scratch_len = CEF_SCRATCH_INTS;
    int32_t out[20];
    uint8_t bytes[100];
    size_t size = 0;
    size_t warnings[CEF_WARNINGS];

    for (size_t i = 0; i < src_len; i++)
        CHECK(cef_write_int(bytes, sizeof bytes, size, src[i], &size) == CEF_OK);
    for (int packed = 0; packed < 2; packed++) {
        size_t count = LEFT;
        fill_ints(out, 20);
        fill_ints(scratch, scratch_len);
        fill_warnings(warnings);
        if (packed)
            CHECK(cef_delta_read(bytes, size, sizes, sizes_len, out, room, scratch, scratch_len,
                                 &count, warnings) == answer);
        else
            CHECK(cef_delta_read_from_ints(src, src_len, sizes, sizes_len, out, room, scratch,
                                           scratch_len, &count, warnings) == answer);
        CHECK(count == (answer == CEF_OK ? len : LEFT));
        CHECK(memcmp(out, delta, len * sizeof out[0]) == 0 && ints_left(out, len, 20));
        CHECK(only(warnings, kind));
        CHECK(scratch[0] == 0 && scratch[scratch_len - 1] == 0);
    }
}

static void check_delta_read(void)
{
    /* Key -1 goes; type 1 gets two ints, type 2 none, type 9 one. */
    const int32_t delta[] = {1, 3, 0, -1, 1, 4, 2, 70, -70, 2, 4, 0, 9, 9, 1, 5};
    const int32_t turned[] = {1, 3, 0, -1, 9, 9, 1, 5, 2, 4, 0, 1, 4, 2, 70, -70};
    const int32_t known[] = {1, 3, 0, -1, 9, 9, 1, 5, 2, 4, 1, 4, 70, -70};
    const int32_t sizes[] = {7, 2, 0, 7};
    const struct {
        size_t len;
        int32_t ints[10];
        uint32_t answer;
    } refused[] = {
        {0, {0}, CEF_UNEXPECTED_END},
        {2, {0, 0}, CEF_UNEXPECTED_END},
        {3, {-1, 0, 0}, CEF_INT_OUT_OF_RANGE},
        {4, {2, 0, 0, 5}, CEF_DELETED_ITEMS_UNPACKING},
        {4, {0, 0, 0, 5}, CEF_ITEM_DIFFS_UNPACKING},
        {6, {0, 1, 0, 65536, 0, 0}, CEF_TYPE_ID_RANGE},
        {6, {0, 1, 0, 0, -1, 0}, CEF_ID_RANGE},
        {6, {0, 1, 0, 0, 0, -1}, CEF_NEGATIVE_SIZE},
        {6, {0, 1, 0, 0, 0, 1}, CEF_ITEM_DIFFS_UNPACKING},
    };
    const struct {
        size_t len;
        int32_t ints[10];
        size_t delta_len;
        int32_t delta[10];
        int kind;
    } warned[] = {
        {3, {0, 0, 1}, 3, {0, 0, 0}, CEF_WARN_NON_ZERO_PADDING},
        {5, {2, 0, 0, 5, 5}, 4, {1, 0, 0, 5}, CEF_WARN_DUPLICATE_DELETE},
        {10, {0, 2, 0, 0, 5, 1, 8, 0, 5, 0}, 6, {0, 1, 0, 0, 5, 0}, CEF_WARN_DUPLICATE_UPDATE},
        {7, {1, 1, 0, 5, 0, 5, 0}, 7, {1, 1, 0, 5, 0, 5, 0}, CEF_WARN_DELETE_UPDATE},
        {3, {0, 4, 0}, 3, {0, 0, 0}, CEF_WARN_NUM_UPDATED_ITEMS},
    };
    size_t warnings[CEF_WARNINGS];
    size_t count = LEFT;

    check_delta_reads(delta, 16, sizes, 0, CEF_OK, delta, 16, 16, -1);
    check_delta_reads(turned, 16, sizes, 0, CEF_OK, delta, 20, 16, -1);
    check_delta_reads(known, 14, sizes, 4, CEF_OK, delta, 16, 16, -1);
    check_delta_reads(delta, 16, sizes, 0, CEF_CAPACITY_ERROR, delta, 15, 0, -1);
    check_delta_reads(known, 14, sizes, 4, CEF_CAPACITY_ERROR, delta, 15, 0, -1);
    for (size_t i = 0; i < sizeof refused / sizeof refused[0]; i++)
        check_delta_reads(refused[i].ints, refused[i].len, sizes, 0, refused[i].answer, delta, 20,
                          0, -1);
    /* What is repeated takes room, but no place. */
    for (size_t i = 0; i < sizeof warned / sizeof warned[0]; i++) {
        check_delta_reads(warned[i].ints, warned[i].len, sizes, 0, CEF_OK, warned[i].delta,
                          warned[i].len, warned[i].delta_len, warned[i].kind);
        check_delta_reads(warned[i].ints, warned[i].len, sizes, 0, CEF_CAPACITY_ERROR, delta,
                          warned[i].len - 1, 0, warned[i].kind);
    }
    fill_warnings(warnings);
    CHECK(cef_delta_read_from_ints(delta, 16, sizes, 0, area, 20, scratch, CEF_SCRATCH_INTS - 1,
                                   &count, warnings) == CEF_SCRATCH_TOO_SHORT);
    CHECK(count == LEFT && only(warnings, -1));
    fill_warnings(warnings);
    CHECK(cef_delta_read(TABLE_BYTES, 7, sizes, 0, area, 20, scratch, CEF_SCRATCH_INTS - 1, &count,
                         warnings) == CEF_SCRATCH_TOO_SHORT);
    CHECK(count == LEFT && only(warnings, -1));
}

/* The examples of the original's format.rs. */
static void check_item_deltas(void)
{
    const int32_t old[] = {0, 1337, 42, INT32_MAX};
    const int32_t new[] = {0, 1338, 21, INT32_MIN};
    const int32_t delta[] = {0, 1, -21, 1};
    int32_t out[5];
    size_t count = LEFT;

    fill_ints(out, 5);
    CHECK(cef_create_item_delta(1, old, 3, new, 4, out, 5, &count) == CEF_DELTA_DIFFERING_SIZES);
    CHECK(cef_apply_item_delta(2, old, 3, delta, 4, out, 3, &count) == CEF_DELTA_DIFFERING_SIZES);
    CHECK(cef_create_item_delta(1, old, 4, new, 4, out, 3, &count) == CEF_CAPACITY_ERROR);
    CHECK(cef_apply_item_delta(1, old, 4, delta, 4, out, 3, &count) == CEF_CAPACITY_ERROR);
    CHECK(cef_create_item_delta(0, old, 0, new, 4, out, 3, &count) == CEF_CAPACITY_ERROR);
    CHECK(cef_apply_item_delta(0, old, 0, delta, 4, out, 3, &count) == CEF_CAPACITY_ERROR);
    CHECK(count == LEFT && ints_left(out, 0, 5));
    CHECK(cef_create_item_delta(1, old, 4, new, 4, out, 5, &count) == CEF_OK && count == 4);
    CHECK(memcmp(out, delta, sizeof delta) == 0 && out[4] == LEFT);
    CHECK(cef_apply_item_delta(UINT32_MAX, old, 4, delta, 4, out, 5, &count) == CEF_OK);
    CHECK(count == 4 && memcmp(out, new, sizeof new) == 0 && out[4] == LEFT);
    CHECK(cef_create_item_delta(0, old, 3, new, 4, out, 4, &count) == CEF_OK && count == 4);
    CHECK(memcmp(out, new, sizeof new) == 0);
    CHECK(cef_apply_item_delta(0, old, 3, delta, 4, out, 4, &count) == CEF_OK && count == 4);
    CHECK(memcmp(out, delta, sizeof delta) == 0);
}

/* Type 0 names the kind 1, 2, 3, 4 under 4000 hex; an item of that kind. */
static const int32_t KINDS_INTS[] = {28, 2, 0, 20, 0x4000, 1, 2, 3, 4, 0x40000007, 5};
static const int32_t KIND[4] = {1, 2, 3, 4};
static const int32_t OTHER_KIND[4] = {1, 2, 3, 5};

#define KINDS_LEN (sizeof KINDS_INTS / sizeof KINDS_INTS[0])

/* A delta applied to the table above, with types judged and without. */
static void check_applied(const int32_t *delta, size_t delta_len, uint32_t raw, uint32_t typed,
                          const int32_t *table, size_t room, size_t len, int kind)
{
    size_t warnings[CEF_WARNINGS];
    int32_t out[20];

    for (int judged = 0; judged < 2; judged++) {
        uint32_t answer = judged ? typed : raw;
        size_t count = LEFT;
        fill_ints(out, 20);
        fill_ints(scratch, CEF_SCRATCH_INTS);
        fill_warnings(warnings);
        if (judged)
            CHECK(cef_snap_read_with_delta(KINDS_INTS, KINDS_LEN, delta, delta_len, out, room,
                                           scratch, CEF_SCRATCH_INTS, &count, warnings) == answer);
        else
            CHECK(cef_table_read_with_delta(KINDS_INTS, KINDS_LEN, delta, delta_len, out, room,
                                            scratch, CEF_SCRATCH_INTS, &count, warnings) == answer);
        size_t written = answer == CEF_OK ? len : 0;
        CHECK(count == (answer == CEF_OK ? len : LEFT));
        CHECK(memcmp(out, table, written * sizeof out[0]) == 0 && ints_left(out, written, 20));
        CHECK(only(warnings, kind));
        CHECK(scratch[0] == 0 && scratch[CEF_SCRATCH_INTS - 1] == 0);
    }
}

static void check_read_with_delta(void)
{
    const int32_t empty[] = {0, 0, 0};
    /* Key 9 is not there. The item gets INT32_MAX more. */
    const int32_t changed[] = {1, 1, 0, 9, 0x4000, 7, 1, INT32_MAX};
    const int32_t table[] = {28, 2, 0, 20, 0x4000, 1, 2, 3, 4, 0x40000007, INT32_MIN + 4};
    const int32_t longer[] = {0, 1, 0, 0x4000, 7, 2, 1, 1};
    const int32_t unnamed[] = {1, 0, 0, 0x4000};
    const int32_t without[] = {8, 1, 0, 0x40000007, 5};
    size_t warnings[CEF_WARNINGS];
    size_t count = LEFT;

    check_applied(empty, 3, CEF_OK, CEF_OK, KINDS_INTS, KINDS_LEN, KINDS_LEN, -1);
    check_applied(changed, 8, CEF_OK, CEF_OK, table, 20, 11, CEF_WARN_UNKNOWN_DELETE);
    check_applied(changed, 8, CEF_CAPACITY_ERROR, CEF_CAPACITY_ERROR, table, 10, 0,
                  CEF_WARN_UNKNOWN_DELETE);
    check_applied(longer, 8, CEF_DELTA_DIFFERING_SIZES, CEF_DELTA_DIFFERING_SIZES, table, 20, 0,
                  -1);
    check_applied(unnamed, 4, CEF_OK, CEF_MISSING_UUID_TYPE, without, 5, 5, -1);
    check_applied(unnamed, 3, CEF_NOT_IN_FORM, CEF_NOT_IN_FORM, table, 20, 0, -1);
    fill_warnings(warnings);
    CHECK(cef_table_read_with_delta(KINDS_INTS, KINDS_LEN, empty, 3, area, 20, scratch,
                                    CEF_SCRATCH_INTS - 1, &count,
                                    warnings) == CEF_SCRATCH_TOO_SHORT);
    CHECK(cef_snap_read_with_delta(KINDS_INTS, KINDS_LEN - 1, empty, 3, area, 20, scratch, 0,
                                   &count, warnings) == CEF_NOT_IN_FORM);
    CHECK(count == LEFT && only(warnings, -1));
}

static void check_snap_read(void)
{
    const struct {
        size_t len;
        int32_t ints[16];
        uint32_t answer;
        int kind;
    } tables[] = {
        {2, {0, 0}, CEF_OK, -1},
        {8, {24, 1, 0, 3, 1, 2, 3, 4}, CEF_ITEMS_UNPACKING, -1},
        {9, {24, 1, 0, 3, 1, 2, 3, 4, 5}, CEF_OK, CEF_WARN_EXCESS_UUID_ITEM_DATA},
        {7, {16, 1, 0, 3, 1, 2, 3}, CEF_INVALID_UUID_TYPE, -1},
        {14, {40, 2, 0, 20, 3, 1, 2, 3, 4, 4, 1, 2, 3, 4}, CEF_DUPLICATE_UUID_TYPE, -1},
        {4, {4, 1, 0, 0x40000000}, CEF_MISSING_UUID_TYPE, -1},
    };
    size_t warnings[CEF_WARNINGS];
    int32_t out[20];
    uint8_t bytes[100];

    for (size_t i = 0; i < sizeof tables / sizeof tables[0]; i++) {
        const int32_t *ints = tables[i].ints;
        const size_t len = tables[i].len;
        size_t size = 0;
        for (size_t j = 0; j < len; j++)
            CHECK(cef_write_int(bytes, sizeof bytes, size, ints[j], &size) == CEF_OK);
        for (int packed = 0; packed < 2; packed++) {
            uint32_t answer = tables[i].answer;
            size_t count = LEFT;
            fill_ints(out, 20);
            fill_ints(scratch, CEF_SCRATCH_INTS);
            fill_warnings(warnings);
            if (packed)
                CHECK(cef_snap_read(bytes, size, out, len, scratch, CEF_SCRATCH_INTS, &count,
                                    warnings) == answer);
            else
                CHECK(cef_snap_read_from_ints(ints, len, out, len, scratch, CEF_SCRATCH_INTS,
                                              &count, warnings) == answer);
            size_t written = answer == CEF_OK ? len : 0;
            CHECK(count == (answer == CEF_OK ? len : LEFT));
            CHECK(memcmp(out, ints, written * sizeof out[0]) == 0 && ints_left(out, written, 20));
            CHECK(only(warnings, tables[i].kind));
            CHECK(scratch[0] == 0 && scratch[CEF_SCRATCH_INTS - 1] == 0);
        }
    }
    size_t count = LEFT;
    CHECK(cef_snap_read_from_ints(tables[0].ints, 2, out, 1, scratch, CEF_SCRATCH_INTS, &count,
                                  warnings) == CEF_CAPACITY_ERROR);
    CHECK(cef_snap_read_from_ints(tables[0].ints, 2, out, 2, scratch, CEF_SCRATCH_INTS - 1, &count,
                                  warnings) == CEF_SCRATCH_TOO_SHORT);
    CHECK(cef_snap_read(bytes, 2, out, 2, scratch, CEF_SCRATCH_INTS - 1, &count, warnings) ==
          CEF_SCRATCH_TOO_SHORT);
    CHECK(count == LEFT);
}

static void check_types(void)
{
    const int32_t *table = KINDS_INTS;
    const size_t len = KINDS_LEN;
    uint32_t known = LEFT;
    uint16_t raw = LEFT;
    uint16_t ordinal = LEFT;
    int32_t uuid[4] = {LEFT, LEFT, LEFT, LEFT};
    int32_t out[4];
    size_t count = LEFT;

    CHECK(cef_snap_raw_type_id(table, len - 1, 0, 0, KIND, &known, &raw) == CEF_NOT_IN_FORM);
    CHECK(cef_snap_raw_type_id(table, len, 0, 0, KIND, &known, &raw) == CEF_INVALID_TYPE_ID);
    CHECK(cef_snap_raw_type_id(table, len, 0, 0x4000, KIND, &known, &raw) == CEF_INVALID_TYPE_ID);
    CHECK(known == LEFT && raw == LEFT);
    CHECK(cef_snap_raw_type_id(table, len, 1, 9, OTHER_KIND, &known, &raw) == CEF_OK);
    CHECK(known == 0 && raw == LEFT);
    CHECK(cef_snap_raw_type_id(table, len, 2, 9, KIND, &known, &raw) == CEF_OK);
    CHECK(known == 1 && raw == 0x4000);
    CHECK(cef_snap_raw_type_id(table, len, 0, 0x3fff, KIND, &known, &raw) == CEF_OK);
    CHECK(known == 1 && raw == 0x3fff);

    known = LEFT;
    CHECK(cef_snap_type_id(table, len - 1, 1, &known, &ordinal, uuid) == CEF_NOT_IN_FORM);
    CHECK(known == LEFT);
    CHECK(cef_snap_type_id(table, len, 0, &known, &ordinal, uuid) == CEF_OK && known == 0);
    CHECK(cef_snap_type_id(table, len, 0x4001, &known, &ordinal, uuid) == CEF_OK && known == 0);
    CHECK(ordinal == LEFT && ints_left(uuid, 0, 4));
    CHECK(cef_snap_type_id(table, len, 9, &known, &ordinal, uuid) == CEF_OK && known == 1);
    CHECK(ordinal == 9 && ints_left(uuid, 0, 4));
    CHECK(cef_snap_type_id(table, len, 0x4000, &known, &ordinal, uuid) == CEF_OK && known == 2);
    CHECK(ordinal == 9 && memcmp(uuid, KIND, sizeof uuid) == 0);

    uint32_t has = LEFT;
    CHECK(cef_snap_has_item(table, len - 1, 1, 0, KIND, 7, &has) == CEF_NOT_IN_FORM);
    CHECK(cef_snap_has_item(table, len, 0, 0, KIND, 7, &has) == CEF_INVALID_TYPE_ID);
    CHECK(has == LEFT);
    CHECK(cef_snap_has_item(table, len, 1, 0, KIND, 8, &has) == CEF_OK && has == 0);
    CHECK(cef_snap_has_item(table, len, 1, 0, KIND, 7, &has) == CEF_OK && has == 1);
    fill_ints(out, 4);
    CHECK(cef_snap_item(table, len - 1, 1, 0, KIND, 7, out, 4, &count) == CEF_NOT_IN_FORM);
    CHECK(cef_snap_item(table, len, 0, 0, KIND, 7, out, 4, &count) == CEF_INVALID_TYPE_ID);
    CHECK(cef_snap_item(table, len, 1, 0, KIND, 7, out, 0, &count) == CEF_CAPACITY_ERROR);
    CHECK(count == LEFT && ints_left(out, 0, 4));
    CHECK(cef_snap_item(table, len, 1, 0, KIND, 7, out, 4, &count) == CEF_OK && count == 1);
    CHECK(out[0] == 5 && ints_left(out, 1, 4));
    CHECK(cef_snap_item(table, len, 1, 0, OTHER_KIND, 7, out, 4, &count) == CEF_OK && count == 0);
}

static void check_builder(void)
{
    const int32_t five = 5;
    const size_t len = KINDS_LEN;
    size_t count = LEFT;

    fill_ints(area, 40);
    CHECK(cef_builder_new(area, 1, &count) == CEF_CAPACITY_ERROR);
    CHECK(cef_builder_finish(area, 40, &count) == CEF_NOT_IN_FORM);
    CHECK(count == LEFT && ints_left(area, 0, 40));
    CHECK(cef_builder_new(area, 40, &count) == CEF_OK && count == 2 && ints_left(area, 2, 40));
    count = LEFT;
    CHECK(cef_builder_add_item(area, 40, 0, 0, KIND, 7, &five, 1, &count) == CEF_INVALID_TYPE_ID);
    CHECK(cef_builder_add_item(area, 40, 0, 0x4000, KIND, 7, &five, 1, &count) ==
          CEF_INVALID_TYPE_ID);
    /* The item that names the kind stays, where it fits. */
    CHECK(cef_builder_add_item(area, 7, 1, 0, KIND, 7, &five, 1, &count) == CEF_CAPACITY_ERROR);
    CHECK(count == LEFT && area[1] == 0 && ints_left(area, 2, 40));
    CHECK(cef_builder_add_item(area, 10, 1, 0, KIND, 7, &five, 1, &count) == CEF_CAPACITY_ERROR);
    CHECK(count == LEFT && area[1] == 1 && area[3] == 0x4000 && ints_left(area, 8, 40));
    CHECK(cef_builder_add_item(area, 11, 1, 0, KIND, 7, &five, 1, &count) == CEF_OK);
    CHECK(count == len && memcmp(area, KINDS_INTS, sizeof KINDS_INTS) == 0);
    CHECK(ints_left(area, len, 40));
    count = LEFT;
    CHECK(cef_builder_add_item(area, 40, 1, 0, KIND, 7, &five, 1, &count) == CEF_DUPLICATE_KEY);
    CHECK(count == LEFT && memcmp(area, KINDS_INTS, sizeof KINDS_INTS) == 0);
    CHECK(cef_builder_finish(area, 40, &count) == CEF_OK && count == len);
    CHECK(cef_builder_add_item(area, 40, 0, 3, KIND, 7, &five, 1, &count) == CEF_OK);
    CHECK(count == len + 3);
    /* Kinds run from 4000 hex on. */
    CHECK(cef_table_add_item(area, 40, 0, 0x4002, OTHER_KIND, 4, &count) == CEF_OK);
    CHECK(cef_builder_finish(area, 40, &count) == CEF_NOT_IN_FORM);
    CHECK(cef_builder_add_item(area, 40, 0, 3, KIND, 8, &five, 1, &count) == CEF_NOT_IN_FORM);
}

/* Worked examples of messages among them: 0, 900 and 901 bytes. */
static void check_chunks(void)
{
    static uint8_t data[CEF_INPUT_MOST + 1];
    int32_t numbers[CEF_MESSAGE_NUMBERS];
    uint32_t kind = LEFT;
    size_t count = LEFT;
    size_t len = LEFT;

    fill_ints(numbers, CEF_MESSAGE_NUMBERS);
    CHECK(cef_num_chunks(data, sizeof data, &count) == CEF_INPUT_TOO_LONG && count == LEFT);
    CHECK(cef_chunk(1, 0, data, sizeof data, 3, 0, &kind, numbers, &len) == CEF_INPUT_TOO_LONG);
    CHECK(kind == LEFT && ints_left(numbers, 0, CEF_MESSAGE_NUMBERS) && len == LEFT);
    CHECK(cef_num_chunks(data, 0, &count) == CEF_OK && count == 1);
    CHECK(cef_num_chunks(data, 900, &count) == CEF_OK && count == 1);
    CHECK(cef_num_chunks(data, 901, &count) == CEF_OK && count == 2);
    CHECK(cef_num_chunks(data, CEF_INPUT_MOST, &count) == CEF_OK && count == 1166);
    CHECK(cef_chunk(1, 0, data, 900, 3, 1, &kind, numbers, &len) == CEF_OK);
    CHECK(kind == CEF_MESSAGE_NONE && ints_left(numbers, 0, CEF_MESSAGE_NUMBERS) && len == 0);
    CHECK(cef_chunk(INT32_MIN, 1, data, 0, 3, 0, &kind, numbers, &len) == CEF_OK);
    CHECK(kind == CEF_MESSAGE_EMPTY && len == 0 && numbers[CEF_MESSAGE_TICK] == INT32_MIN);
    CHECK(numbers[CEF_MESSAGE_DISTANCE] == INT32_MAX && numbers[CEF_MESSAGE_CRC] == 0);
    CHECK(cef_chunk(9, 2, data, 900, 3, 0, &kind, numbers, &len) == CEF_OK);
    CHECK(kind == CEF_MESSAGE_SINGLE && len == 900 && numbers[CEF_MESSAGE_CRC] == 3);
    CHECK(cef_chunk(9, 2, data, 901, 3, 1, &kind, numbers, &len) == CEF_OK);
    CHECK(kind == CEF_MESSAGE_SNAP && len == 1 && numbers[CEF_MESSAGE_TICK] == 9);
    CHECK(numbers[CEF_MESSAGE_DISTANCE] == 7 && numbers[CEF_MESSAGE_NUM_PARTS] == 2);
    CHECK(numbers[CEF_MESSAGE_PART] == 1 && numbers[CEF_MESSAGE_CRC] == 3);
}

static void check_receiver(void)
{
    static uint8_t parts[CEF_PART_AREA_BYTES];
    static uint8_t joined[CEF_PART_AREA_BYTES];
    const uint8_t data[CEF_PART_BYTES + 1] = {1, 2, 3, 4, 5};
    size_t warnings[CEF_WARNINGS];
    int32_t got[CEF_RECEIVED_NUMBERS];
    uint32_t kind = LEFT;
    size_t len = LEFT;
    cef_receiver r;
    cef_receiver before;

    memset(&r, 7, sizeof r);
    cef_receiver_new(r.ticks, r.counts, r.lengths);
    for (int i = 0; i < 4; i++)
        CHECK(r.ticks[i] == 0);
    CHECK(r.counts[0] == 0 && r.counts[1] == 0 && r.counts[2] == 0);
    before = r;
    fill_ints(got, CEF_RECEIVED_NUMBERS);
#define SNAP(tick, count, part, size, area)                                              \
    cef_receiver_snap(r.ticks, r.counts, r.lengths, tick, 4, count, part, 6, data, size, \
                      parts, area, joined, sizeof joined, &kind, got, &len, warnings)
    CHECK(SNAP(9, 2, 1, 2, sizeof parts - 1) == CEF_SCRATCH_TOO_SHORT);
    CHECK(SNAP(9, 2, 1, CEF_PART_BYTES + 1, sizeof parts) == CEF_PART_TOO_LONG);
    CHECK(SNAP(9, 33, 1, 2, sizeof parts) == CEF_INVALID_NUM_PARTS);
    CHECK(SNAP(9, 0, 0, 2, sizeof parts) == CEF_INVALID_PART);
    CHECK(memcmp(&r, &before, sizeof r) == 0 && kind == LEFT && len == LEFT);
    CHECK(ints_left(got, 0, CEF_RECEIVED_NUMBERS));
    CHECK(SNAP(9, 2, 1, 2, sizeof parts) == CEF_OK && kind == CEF_RECEIVED_NOTHING);
    CHECK(only(warnings, -1) && parts[900] == 1 && len == LEFT);
    CHECK(SNAP(9, 2, 1, 2, sizeof parts) == CEF_DUPLICATE_PART);
    CHECK(SNAP(8, 2, 1, 2, sizeof parts) == CEF_RECEIVER_OLD_DELTA);
    CHECK(SNAP(9, 2, 0, 3, sizeof parts) == CEF_OK && kind == CEF_RECEIVED_DELTA && len == 5);
    CHECK(got[CEF_RECEIVED_TICK] == 9 && got[CEF_RECEIVED_DELTA_TICK] == 5);
    CHECK(got[CEF_RECEIVED_CRC] == 6 && memcmp(joined, "\1\2\3\1\2", 5) == 0);
    CHECK(SNAP(9, 2, 0, 3, sizeof parts) == CEF_RECEIVER_OLD_DELTA);
#undef SNAP
    CHECK(cef_receiver_snap_single(r.ticks, r.counts, r.lengths, 10, 1, 8, data, 5, joined,
                                   sizeof joined, &kind, got, &len, warnings) == CEF_OK);
    CHECK(kind == CEF_RECEIVED_DELTA && len == 5 && memcmp(joined, data, 5) == 0);
    CHECK(cef_receiver_snap_empty(r.ticks, r.counts, r.lengths, 11, 1, &kind, got, &len,
                                  warnings) == CEF_OK);
    CHECK(kind == CEF_RECEIVED_EMPTY && len == 0 && got[CEF_RECEIVED_TICK] == 11);
    CHECK(cef_receiver_snap_empty(r.ticks, r.counts, r.lengths, 11, 1, &kind, got, &len,
                                  warnings) == CEF_RECEIVER_OLD_DELTA);
    cef_receiver_reset(r.ticks, r.counts, r.lengths);
    CHECK(memcmp(&r, &before, sizeof r) == 0);
    r.lengths[0] = 0;
    CHECK(cef_receiver_snap_empty(r.ticks, r.counts, r.lengths, 12, 1, &kind, got, &len,
                                  warnings) == CEF_NOT_IN_FORM);
}

/* What a part's call sets, beside its receiver. */
struct taken {
    uint32_t kind;
    int32_t got[CEF_RECEIVED_NUMBERS];
    size_t warnings[CEF_WARNINGS];
};

/* A part of one byte. */
static uint32_t take(cef_receiver *r, struct taken *t, cef_tick tick, cef_distance distance,
                     int32_t count, int32_t part, int32_t sum)
{
    static uint8_t parts[CEF_PART_AREA_BYTES];
    static uint8_t joined[CEF_PART_AREA_BYTES];
    const uint8_t data[1] = {1};
    size_t len;

    return cef_receiver_snap(r->ticks, r->counts, r->lengths, tick, distance, count, part, sum,
                             data, 1, parts, sizeof parts, joined, sizeof joined, &t->kind,
                             t->got, &len, t->warnings);
}

/* The two parts of a delta, the second one first, count no warning. */
static void check_own_parts(void)
{
    const uint8_t data[CEF_PART_BYTES + 1] = {1};
    int32_t n[CEF_MESSAGE_NUMBERS];
    uint32_t kind;
    size_t len;
    cef_receiver r;
    struct taken t;

    cef_receiver_new(r.ticks, r.counts, r.lengths);
    for (size_t i = 2; i-- > 0;) {
        CHECK(cef_chunk(9, 5, data, sizeof data, 6, i, &kind, n, &len) == CEF_OK);
        CHECK(take(&r, &t, n[CEF_MESSAGE_TICK], n[CEF_MESSAGE_DISTANCE], n[CEF_MESSAGE_NUM_PARTS],
                   n[CEF_MESSAGE_PART], n[CEF_MESSAGE_CRC]) == CEF_OK);
        CHECK(only(t.warnings, -1));
    }
    CHECK(t.kind == CEF_RECEIVED_DELTA && t.got[CEF_RECEIVED_DELTA_TICK] == 5);
}

/* The warning of a part whose base, part count or sum is not the first part's. */
static void check_differing(void)
{
    const int differs = CEF_WARN_DIFFERING_ATTRIBUTES;
    cef_receiver r;
    struct taken t;

    cef_receiver_new(r.ticks, r.counts, r.lengths);
    CHECK(take(&r, &t, 10, 5, 5, 0, -6) == CEF_OK && only(t.warnings, -1));
    CHECK(take(&r, &t, 10, 4, 5, 1, -6) == CEF_OK && only(t.warnings, differs));
    CHECK(take(&r, &t, 10, 5, 4, 2, -6) == CEF_OK && only(t.warnings, differs));
    CHECK(take(&r, &t, 10, 5, 5, 3, 6) == CEF_OK && only(t.warnings, differs));
    /* A part that is refused as a duplicate is still compared, one refused before is not. */
    CHECK(take(&r, &t, 10, 5, 5, 3, 6) == CEF_DUPLICATE_PART && only(t.warnings, differs));
    CHECK(take(&r, &t, 10, 5, 5, 3, -6) == CEF_DUPLICATE_PART && only(t.warnings, -1));
    CHECK(take(&r, &t, 10, 4, 33, 3, 6) == CEF_INVALID_NUM_PARTS && only(t.warnings, -1));
    CHECK(take(&r, &t, 10, 5, 5, 4, -6) == CEF_OK && only(t.warnings, -1));
    CHECK(t.kind == CEF_RECEIVED_DELTA && t.got[CEF_RECEIVED_DELTA_TICK] == 5);
    CHECK(t.got[CEF_RECEIVED_CRC] == -6);
    /* The first part of a newer tick fixes all three again. The base wraps. */
    CHECK(take(&r, &t, 11, 1, 3, 0, 7) == CEF_OK && only(t.warnings, -1));
    CHECK(take(&r, &t, INT32_MAX, -1, 2, 0, 8) == CEF_OK && only(t.warnings, -1));
    CHECK(take(&r, &t, INT32_MAX, -1, 2, 1, 8) == CEF_OK && only(t.warnings, -1));
    CHECK(t.kind == CEF_RECEIVED_DELTA && t.got[CEF_RECEIVED_DELTA_TICK] == INT32_MIN);
}

int main(void)
{
    check_read();
    check_write();
    check_readers();
    check_unpack();
    check_longest();
    check_table_read();
    check_table_calls();
    check_table_add();
    check_rules_refused();
    check_rules();
    check_delta_create();
    check_delta_write();
    check_delta_read();
    check_item_deltas();
    check_read_with_delta();
    check_snap_read();
    check_types();
    check_builder();
    check_chunks();
    check_receiver();
    check_own_parts();
    check_differing();
    check_storage();
    check_manager();
    check_padding();
    printf("C program: %d checks, %d not so\n", checks, failures);
    return failures == 0 ? 0 : 1;
}

/*
 * cefdugar: the way of a rule table from the controller to the printer.
 *
 * Link with the static library libcefdugar.a (x86-64), which `include/archive`
 * proves and writes to target/staticlib.
 *
 * A function answers CEF_OK or the number of its refusal. What it sets and
 * what it leaves stands beside each one.
 *
 * Every pointer must be valid for the length that goes with it, and not null
 * even where that length is 0. What a function writes to must not overlap
 * with anything else that it is given. A function keeps no pointer and has no
 * state of its own.
 */

#ifndef CEFDUGAR_H
#define CEFDUGAR_H

#include <stddef.h>
#include <stdint.h>

#ifdef __cplusplus
extern "C" {
#endif

/* ---- Ticks and distances ---- */

/*
 * A tick is the number of a table; a distance is how far a table's tick lies
 * past its base's. They are two sorts of count: comparing a tick with a
 * distance makes no sense, and only a subtraction relates them, which wraps:
 * the base's tick is the table's tick minus the distance.
 */
typedef int32_t cef_tick;
typedef int32_t cef_distance;

/* ---- Answers ---- */

#define CEF_OK 0u

/* Packed integers, tables, deltas, types. */
#define CEF_UNEXPECTED_END 1u
#define CEF_INT_OUT_OF_RANGE 2u
#define CEF_DELETED_ITEMS_UNPACKING 3u
#define CEF_ITEM_DIFFS_UNPACKING 4u
#define CEF_TYPE_ID_RANGE 5u
#define CEF_ID_RANGE 6u
#define CEF_NEGATIVE_SIZE 7u
#define CEF_TOO_LONG_SNAP 8u
#define CEF_TOO_MANY_ITEMS 9u
#define CEF_DELTA_DIFFERING_SIZES 10u
#define CEF_OFFSETS_UNPACKING 11u
#define CEF_INVALID_OFFSET 12u
#define CEF_ITEMS_UNPACKING 13u
#define CEF_DUPLICATE_KEY 14u
#define CEF_DUPLICATE_UUID_TYPE 15u
#define CEF_INVALID_UUID_TYPE 16u
#define CEF_MISSING_UUID_TYPE 17u

/* Receiver. */
#define CEF_RECEIVER_OLD_DELTA 20u
#define CEF_INVALID_NUM_PARTS 21u
#define CEF_INVALID_PART 22u
#define CEF_DUPLICATE_PART 23u

/* Store. */
#define CEF_STORAGE_OLD_DELTA 30u
#define CEF_UNKNOWN_SNAP 31u
#define CEF_INVALID_CRC 32u

/* Lent areas, lengths and forms. */
#define CEF_CAPACITY_ERROR 40u
#define CEF_SCRATCH_TOO_SHORT 41u
#define CEF_INPUT_TOO_LONG 42u
#define CEF_PART_TOO_LONG 43u
#define CEF_STORE_FULL 44u
#define CEF_INVALID_TYPE_ID 45u
#define CEF_KNOWN_SIZE_DIFFERS 46u
#define CEF_NOT_IN_FORM 47u

/* Set padding bits of a packed integer. */
#define CEF_NON_ZERO_INT_PADDING 52u

/* Rules. */
#define CEF_SHORT_RULE 55u

/* ---- Warnings: the place of each kind in an array of counts ---- */

/*
 * Incompatible change: an array has 12 places where it had 13. The warning
 * about the padding bits of an integer, at place 1, is gone: they are refused
 * with CEF_NON_ZERO_INT_PADDING. The kinds behind it have moved down by one. A
 * program that was compiled for 13 places must be compiled anew.
 */
#define CEF_WARN_OVERLONG_INT_ENCODING 0
#define CEF_WARN_NON_ZERO_PADDING 1
#define CEF_WARN_DUPLICATE_DELETE 2
#define CEF_WARN_DUPLICATE_UPDATE 3
#define CEF_WARN_UNKNOWN_DELETE 4
#define CEF_WARN_DELETE_UPDATE 5
#define CEF_WARN_NUM_UPDATED_ITEMS 6
#define CEF_WARN_EXCESS_SNAP_DATA 7
#define CEF_WARN_EXCESS_UUID_ITEM_DATA 8
#define CEF_WARN_DUPLICATE_SNAP 9
#define CEF_WARN_DIFFERING_ATTRIBUTES 10
#define CEF_WARN_WEIRD_NEGATIVE_DELTA_TICK 11
#define CEF_WARNINGS 12

/* ---- Packed integers ---- */

/* The most bytes or ints that a call reads. */
#define CEF_INPUT_MOST 1048576

/* The most bytes that a packed integer takes. */
#define CEF_INT_BYTES 5

/*
 * The upper four bits of an integer's fifth byte are padding and must be 0.
 * CEF_NON_ZERO_INT_PADDING means that one of them is set; the integer's value
 * is then not used.
 */

/*
 * Reads the packed integer that begins at place `at` of the `src_len` bytes
 * at `src`.
 *
 * CEF_OK: *value is the integer, *next the place after it.
 * CEF_INPUT_TOO_LONG: src_len > CEF_INPUT_MOST.
 * CEF_UNEXPECTED_END: the bytes end inside it, or at >= src_len.
 * CEF_NON_ZERO_INT_PADDING: a padding bit of it is set.
 * Refused: *value and *next are left.
 *
 * `warnings`: all counts of this call are set, refused or not.
 */
uint32_t cef_read_int(const uint8_t *src, size_t src_len, size_t at,
                      int32_t *value, size_t *next,
                      size_t warnings[CEF_WARNINGS]);

/*
 * What a reader over the packed bytes answers that stands at place `at`: the
 * next integer, and where the reader then stands.
 *
 * CEF_OK: *value is the integer.
 * CEF_UNEXPECTED_END: the bytes end inside it, or at >= src_len. *value is
 * left.
 * CEF_NON_ZERO_INT_PADDING: a padding bit of it is set. *value is left.
 *
 * In these cases: *next is the place after the integer, or the end of the
 * bytes where it was refused; *left is how many bytes are left from there on;
 * *empty is 1 where none are, else 0.
 *
 * CEF_INPUT_TOO_LONG: src_len > CEF_INPUT_MOST. *value, *next, *left and
 * *empty are left: the reader stands where it stood.
 *
 * `warnings`: all counts of this call are set, refused or not.
 */
uint32_t cef_unpacker_read_int(const uint8_t *src, size_t src_len, size_t at,
                               int32_t *value, size_t *next, size_t *left,
                               uint32_t *empty, size_t warnings[CEF_WARNINGS]);

/* The same of a reader over ints, which have no padding bits or warnings. */
uint32_t cef_int_unpacker_read_int(const int32_t *src, size_t src_len,
                                   size_t at, int32_t *value, size_t *next,
                                   size_t *left, uint32_t *empty);

/*
 * Writes `value` in its shortest form at place `at` of the `out_len` bytes at
 * `out`.
 *
 * CEF_OK: *next is the place after it. All other bytes of `out` are left.
 * CEF_CAPACITY_ERROR: it does not fit, or at > out_len. `out` and *next are
 * left.
 */
uint32_t cef_write_int(uint8_t *out, size_t out_len, size_t at, int32_t value,
                       size_t *next);

/*
 * Reads all the packed integers of the `src_len` bytes at `src` into the front
 * of the `out_len` ints at `out`.
 *
 * CEF_OK: *count ints are written, those behind them are left. *cut is 1
 * where the end of the bytes cut off the last integer, which is then not
 * among the ints, else 0.
 * CEF_INPUT_TOO_LONG: src_len > CEF_INPUT_MOST.
 * CEF_NON_ZERO_INT_PADDING: a padding bit of an integer is set.
 * CEF_CAPACITY_ERROR: the ints do not fit.
 * Judged in this order. Refused: `out`, *count and *cut are left.
 *
 * `warnings`: all counts of this call are set, refused or not: those of the
 * whole input, or of the integers before one with a padding bit set; none
 * where the input is too long.
 */
uint32_t cef_unpack(const uint8_t *src, size_t src_len, int32_t *out,
                    size_t out_len, size_t *count, uint32_t *cut,
                    size_t warnings[CEF_WARNINGS]);

/* ---- Tables ---- */

/* The most items of a table, and the most ints that it takes. */
#define CEF_TABLE_ITEMS 1024
#define CEF_TABLE_INTS 16384

/* The least scratch, in ints; reading bytes also asks for one int a byte. */
#define CEF_SCRATCH_INTS 16384

/*
 * A table of keyed items stands in a lent area of ints: data size in bytes,
 * item count, byte offsets, then key and data for each item, in the order of
 * keys read as unsigned. An item's key is its type times 65,536 and its id.
 * A table begins at the area's first int; the ints behind it are not judged
 * and are left. CEF_NOT_IN_FORM means that an area holds no table;
 * everything that was lent is then left, but for scratch and the counts of
 * warnings.
 *
 * CEF_CAPACITY_ERROR means that a result does not fit into the area lent for
 * it, and nothing else is wrong. *count is then left as well.
 */

/*
 * Writes the empty table, two ints, to the front of the `out_len` ints at
 * `out`.
 *
 * CEF_OK: *count is 2.
 * CEF_CAPACITY_ERROR: out_len < 2. `out` and *count are left.
 */
uint32_t cef_table_empty(int32_t *out, size_t out_len, size_t *count);

/*
 * Reads the packed table that the `src_len` bytes at `src` hold into the
 * front of the `out_len` ints at `out`.
 *
 * CEF_OK: the table takes *count ints there.
 * CEF_SCRATCH_TOO_SHORT: scratch_len < CEF_SCRATCH_INTS, or < src_len.
 * CEF_INPUT_TOO_LONG: src_len > CEF_INPUT_MOST.
 * CEF_NON_ZERO_INT_PADDING: a padding bit of an integer is set, also behind
 * the table. The counts are those of the integers before it.
 * CEF_UNEXPECTED_END, CEF_INT_OUT_OF_RANGE, CEF_OFFSETS_UNPACKING,
 * CEF_INVALID_OFFSET, CEF_ITEMS_UNPACKING, CEF_DUPLICATE_KEY,
 * CEF_TOO_MANY_ITEMS, CEF_TOO_LONG_SNAP: no table.
 * CEF_CAPACITY_ERROR: the table does not fit.
 * A refused call leaves `out` and *count.
 *
 * `scratch` is zeros afterwards, refused or not. `warnings`: all counts up to
 * the refusal are set.
 */
uint32_t cef_table_read(const uint8_t *src, size_t src_len, int32_t *out,
                        size_t out_len, int32_t *scratch, size_t scratch_len,
                        size_t *count, size_t warnings[CEF_WARNINGS]);

/*
 * Reads the table that the `src_len` ints at `src` hold, their items in any
 * order, into the front of the `out_len` ints at `out`. Answers as
 * cef_table_read does, but for CEF_SCRATCH_TOO_SHORT and
 * CEF_NON_ZERO_INT_PADDING.
 */
uint32_t cef_table_read_from_ints(const int32_t *src, size_t src_len,
                                  int32_t *out, size_t out_len, size_t *count,
                                  size_t warnings[CEF_WARNINGS]);

/*
 * Packs a table into the front of the `out_len` bytes at `out`.
 *
 * CEF_OK: *count bytes are written.
 * CEF_NOT_IN_FORM, CEF_CAPACITY_ERROR: `out` and *count are left.
 */
uint32_t cef_table_write(const int32_t *area, size_t area_len, uint8_t *out,
                         size_t out_len, size_t *count);

/*
 * Writes a table to the front of the `out_len` ints at `out`.
 *
 * CEF_OK: *count ints are written.
 * CEF_NOT_IN_FORM, CEF_CAPACITY_ERROR: `out` and *count are left.
 */
uint32_t cef_table_write_to_ints(const int32_t *area, size_t area_len,
                                 int32_t *out, size_t out_len, size_t *count);

/*
 * CEF_OK: *count is how many items the table has.
 * CEF_NOT_IN_FORM: *count is left.
 */
uint32_t cef_table_num_items(const int32_t *area, size_t area_len,
                             size_t *count);

/*
 * CEF_OK: *has is 1 where the table has an item of this type and id, else 0.
 * CEF_NOT_IN_FORM: *has is left.
 */
uint32_t cef_table_has_item(const int32_t *area, size_t area_len,
                            uint16_t raw_type_id, uint16_t id, uint32_t *has);

/*
 * Copies the data of the item of this type and id to the front of the
 * `out_len` ints at `out`.
 *
 * CEF_OK: *count ints are written. They are none where there is no such item,
 * and where it has no data: cef_table_has_item tells these apart.
 * CEF_NOT_IN_FORM, CEF_CAPACITY_ERROR: `out` and *count are left.
 */
uint32_t cef_table_item(const int32_t *area, size_t area_len,
                        uint16_t raw_type_id, uint16_t id, int32_t *out,
                        size_t out_len, size_t *count);

/*
 * CEF_OK: *crc is the sum of all data ints, modulo 2^32.
 * CEF_NOT_IN_FORM: *crc is left.
 */
uint32_t cef_table_crc(const int32_t *area, size_t area_len, int32_t *crc);

/*
 * Walks a table in the order of keys read as signed.
 *
 * CEF_OK: *end is 0 and *key the key of item `i` of the walk, or *end is 1
 * and *key left where the table has no more than `i` items.
 * CEF_NOT_IN_FORM: *key and *end are left.
 */
uint32_t cef_table_walk_key(const int32_t *area, size_t area_len, size_t i,
                            int32_t *key, uint32_t *end);

/*
 * Copies the data of item `i` of that walk to the front of the `out_len` ints
 * at `out`.
 *
 * CEF_OK: *count ints are written. They are none past the end, and where the
 * item has no data: cef_table_walk_key tells these apart.
 * CEF_NOT_IN_FORM, CEF_CAPACITY_ERROR: `out` and *count are left.
 */
uint32_t cef_table_walk_item(const int32_t *area, size_t area_len, size_t i,
                             int32_t *out, size_t out_len, size_t *count);

/*
 * Adds an item with the `values_len` ints at `values` to the table in `area`.
 *
 * CEF_OK: the table now takes *count ints.
 * CEF_NOT_IN_FORM, CEF_DUPLICATE_KEY, CEF_TOO_MANY_ITEMS, CEF_TOO_LONG_SNAP,
 * CEF_CAPACITY_ERROR, judged in this order: `area` and *count are left.
 */
uint32_t cef_table_add_item(int32_t *area, size_t area_len,
                            uint16_t raw_type_id, uint16_t id,
                            const int32_t *values, size_t values_len,
                            size_t *count);

/*
 * Applies the delta in `delta`, see below, to the table in `base`, into the
 * front of the `out_len` ints at `out`: what the delta does not delete is
 * kept, and differences are added to what the base has. An update of a
 * deleted key still adds to the base's data.
 *
 * CEF_OK: the table takes *count ints there.
 * CEF_NOT_IN_FORM: `base` holds no table, or `delta` no delta.
 * CEF_SCRATCH_TOO_SHORT: scratch_len < CEF_SCRATCH_INTS.
 * CEF_TOO_MANY_ITEMS, CEF_TOO_LONG_SNAP: an update is one item too many, or
 * too long. CEF_DELTA_DIFFERING_SIZES: it has not the length of the base's
 * item. These are judged update by update.
 * CEF_CAPACITY_ERROR: the table does not fit.
 * Judged in this order. A refused call leaves `out` and *count.
 *
 * `scratch` is zeros afterwards, refused or not. `warnings`: all counts up to
 * the refusal are set.
 */
uint32_t cef_table_read_with_delta(const int32_t *base, size_t base_len,
                                   const int32_t *delta, size_t delta_len,
                                   int32_t *out, size_t out_len,
                                   int32_t *scratch, size_t scratch_len,
                                   size_t *count,
                                   size_t warnings[CEF_WARNINGS]);

/* ---- Types ---- */

/* A kind's 16 bytes are four ints, each with its highest byte first. */
#define CEF_UUID_INTS 4

/* What the type of an item is. */
#define CEF_TYPE_NONE 0u
#define CEF_TYPE_ORDINAL 1u
#define CEF_TYPE_UUID 2u

/*
 * The type of an item is a number from 1 up and below 0x4000, or a kind of 16
 * bytes. In a table both are numbers of 16 bits, raw types: a kind's is the id
 * of the item of type 0 that names it by its first four ints. Types are sound
 * where each item of type 0 has four ints or more, no two of them name one
 * kind, and each type from 0x4000 up has an item of type 0 whose id it is.
 *
 * A type is three parameters: where is_uuid is 0 it is the number `ordinal`,
 * and `uuid` is not looked at; else it is the kind `uuid`, and `ordinal` is
 * not looked at.
 *
 * CEF_INVALID_TYPE_ID means that is_uuid is 0, and `ordinal` is 0 or from
 * 0x4000 up. It comes behind CEF_NOT_IN_FORM; with both, everything that was
 * lent is left.
 */

/*
 * As cef_table_read, CEF_NON_ZERO_INT_PADDING included, and the table's types
 * must be sound: they are judged in the order of keys read as signed, with
 * CEF_DUPLICATE_UUID_TYPE, CEF_INVALID_UUID_TYPE and CEF_MISSING_UUID_TYPE,
 * before CEF_CAPACITY_ERROR.
 */
uint32_t cef_snap_read(const uint8_t *src, size_t src_len, int32_t *out,
                       size_t out_len, int32_t *scratch, size_t scratch_len,
                       size_t *count, size_t warnings[CEF_WARNINGS]);

/*
 * As cef_table_read_from_ints, and the types must be sound, as in
 * cef_snap_read. First CEF_SCRATCH_TOO_SHORT is judged: scratch_len <
 * CEF_SCRATCH_INTS. `scratch` is zeros afterwards, refused or not.
 */
uint32_t cef_snap_read_from_ints(const int32_t *src, size_t src_len,
                                 int32_t *out, size_t out_len,
                                 int32_t *scratch, size_t scratch_len,
                                 size_t *count, size_t warnings[CEF_WARNINGS]);

/*
 * As cef_table_read_with_delta, and the types of the table that the delta
 * makes must be sound, as in cef_snap_read.
 */
uint32_t cef_snap_read_with_delta(const int32_t *base, size_t base_len,
                                  const int32_t *delta, size_t delta_len,
                                  int32_t *out, size_t out_len,
                                  int32_t *scratch, size_t scratch_len,
                                  size_t *count,
                                  size_t warnings[CEF_WARNINGS]);

/*
 * CEF_OK: *known is 1 and *raw_type_id the raw type of this type, or *known is
 * 0 and *raw_type_id left where no item of the table names the kind. The raw
 * type of a number is the number.
 * CEF_NOT_IN_FORM, CEF_INVALID_TYPE_ID: *known and *raw_type_id are left.
 */
uint32_t cef_snap_raw_type_id(const int32_t *area, size_t area_len,
                              uint32_t is_uuid, uint16_t ordinal,
                              const int32_t uuid[CEF_UUID_INTS],
                              uint32_t *known, uint16_t *raw_type_id);

/*
 * CEF_OK: *kind says what the type of this raw type is. CEF_TYPE_ORDINAL:
 * *ordinal is the number, `uuid` is left. CEF_TYPE_UUID: `uuid` is the kind,
 * *ordinal is left. CEF_TYPE_NONE, for 0 and where no item names a kind of
 * this raw type: both are left.
 * CEF_NOT_IN_FORM: *kind, *ordinal and `uuid` are left.
 */
uint32_t cef_snap_type_id(const int32_t *area, size_t area_len,
                          uint16_t raw_type_id, uint32_t *kind,
                          uint16_t *ordinal, int32_t uuid[CEF_UUID_INTS]);

/*
 * CEF_OK: *has is 1 where the table has an item of this type and id, else 0.
 * CEF_NOT_IN_FORM, CEF_INVALID_TYPE_ID: *has is left.
 */
uint32_t cef_snap_has_item(const int32_t *area, size_t area_len,
                           uint32_t is_uuid, uint16_t ordinal,
                           const int32_t uuid[CEF_UUID_INTS], uint16_t id,
                           uint32_t *has);

/*
 * Copies the data of the item of this type and id to the front of the
 * `out_len` ints at `out`.
 *
 * CEF_OK: *count ints are written. They are none where there is no such item,
 * and where it has no data: cef_snap_has_item tells these apart.
 * CEF_NOT_IN_FORM, CEF_INVALID_TYPE_ID, CEF_CAPACITY_ERROR: `out` and *count
 * are left.
 */
uint32_t cef_snap_item(const int32_t *area, size_t area_len, uint32_t is_uuid,
                       uint16_t ordinal, const int32_t uuid[CEF_UUID_INTS],
                       uint16_t id, int32_t *out, size_t out_len,
                       size_t *count);

/* ---- The builder ---- */

/*
 * A builder makes a table item by item. The items that name its kinds have ids
 * from 0x4000 up without a gap and four ints each, and its types are sound;
 * CEF_NOT_IN_FORM means that an area holds no such table.
 */

/*
 * Writes the empty table, two ints, to the front of the `out_len` ints at
 * `out`. Answers as cef_table_empty does.
 */
uint32_t cef_builder_new(int32_t *out, size_t out_len, size_t *count);

/*
 * Adds an item of this type and id with the `values_len` ints at `values` to
 * the table in `area`. Where the type is a kind that the table does not know,
 * an item that names it is added first, with the next number.
 *
 * CEF_OK: the table now takes *count ints.
 * CEF_NOT_IN_FORM, CEF_INVALID_TYPE_ID, judged in this order; then, of each
 * item that is added, CEF_DUPLICATE_KEY, CEF_TOO_MANY_ITEMS,
 * CEF_TOO_LONG_SNAP; then CEF_CAPACITY_ERROR: *count is left, and `area` as
 * well, but for an item that names a new kind, which stays where it fits and
 * only the other one is refused.
 */
uint32_t cef_builder_add_item(int32_t *area, size_t area_len, uint32_t is_uuid,
                              uint16_t ordinal,
                              const int32_t uuid[CEF_UUID_INTS], uint16_t id,
                              const int32_t *values, size_t values_len,
                              size_t *count);

/*
 * CEF_OK: *count is how many ints the builder's table takes.
 * CEF_NOT_IN_FORM: *count is left.
 */
uint32_t cef_builder_finish(const int32_t *area, size_t area_len,
                            size_t *count);

/* ---- Rules ---- */

/*
 * The items of the `types_len` raw types at `types` are rules; an item of any
 * other type is none. The list may be of any length and in any order, may
 * name a type twice, and may name 0. A caller whose rules have a kind of 16
 * bytes as their type asks cef_snap_raw_type_id first.
 *
 * The first three ints of a rule are ingredient, priority and action; what
 * follows them does not matter. Of the rules for an ingredient the winner is
 * the one with the highest priority, read as signed, and among equals the one
 * with the greatest key, read as unsigned. So equal tables have equal
 * winners, however they were made or received.
 */

/*
 * Finds the winner for `ingredient`.
 *
 * CEF_OK: *found is 1, *key the winner's key and *action its action, or
 * *found is 0 and *key and *action are left where no rule is for this
 * ingredient.
 * CEF_NOT_IN_FORM: `area` holds no table.
 * CEF_SHORT_RULE: an item of one of the types has fewer than three ints, for
 * whatever ingredient, and also where another rule would win.
 * Judged in this order. Refused: *found, *key and *action are left.
 */
uint32_t cef_rule_winner(const int32_t *area, size_t area_len,
                         const uint16_t *types, size_t types_len,
                         int32_t ingredient, uint32_t *found, int32_t *key,
                         int32_t *action);

/* ---- Deltas ---- */

/* The most ints that a delta between two tables takes. */
#define CEF_DELTA_INTS 18433

/*
 * A delta between two tables stands in a lent area of ints: deleted count,
 * updated count, 0; the deleted keys; then type, id, size and differences for
 * each update. Keys rise in both lists, read as signed. A delta begins at the
 * area's first int; the ints behind it are not judged and are left.
 *
 * `sizes` is a list by type of how long the data of its items is known to be.
 * A type that is absent, or whose entry is negative, has no known size. Where
 * a delta is written, a known size is not written with it, and where one is
 * read, it is not read.
 *
 * CEF_NOT_IN_FORM means that an area holds no table, or no delta where one is
 * asked for. A refused call leaves everything that was lent, but for the key
 * of CEF_DELTA_DIFFERING_SIZES, scratch and the counts of warnings.
 */

/*
 * Writes the empty delta, three ints, to the front of the `out_len` ints at
 * `out`.
 *
 * CEF_OK: *count is 3.
 * CEF_CAPACITY_ERROR: out_len < 3. `out` and *count are left.
 */
uint32_t cef_delta_clear(int32_t *out, size_t out_len, size_t *count);

/*
 * Makes the delta that leads from the table in `base` to the one in `target`,
 * in the front of the `out_len` ints at `out`. Every item of the target is an
 * update.
 *
 * CEF_OK: the delta takes *count ints there. *clash is left.
 * CEF_DELTA_DIFFERING_SIZES: both tables have an item with the key *clash,
 * with data of different lengths; of all such keys it is the least one, read
 * as unsigned. `out` and *count are left.
 * CEF_NOT_IN_FORM, CEF_CAPACITY_ERROR: `out`, *count and *clash are left.
 */
uint32_t cef_delta_create(const int32_t *base, size_t base_len,
                          const int32_t *target, size_t target_len,
                          int32_t *out, size_t out_len, size_t *count,
                          int32_t *clash);

/*
 * Writes a delta to the front of the `out_len` ints at `out`, without the
 * sizes that are known.
 *
 * CEF_OK: *count ints are written.
 * CEF_NOT_IN_FORM, CEF_KNOWN_SIZE_DIFFERS where an update is not as long as
 * its type is known to be, CEF_CAPACITY_ERROR, judged in this order: `out`
 * and *count are left.
 */
uint32_t cef_delta_write_to_ints(const int32_t *area, size_t area_len,
                                 const int32_t *sizes, size_t sizes_len,
                                 int32_t *out, size_t out_len, size_t *count);

/*
 * Packs a delta into the front of the `out_len` bytes at `out`, without the
 * sizes that are known. Answers as cef_delta_write_to_ints does; *count is
 * how many bytes are written.
 */
uint32_t cef_delta_write(const int32_t *area, size_t area_len,
                         const int32_t *sizes, size_t sizes_len, uint8_t *out,
                         size_t out_len, size_t *count);

/*
 * Reads a delta of ints, its keys in any order, into the front of the
 * `out_len` ints at `out`. Of several updates of one key the last counts.
 *
 * CEF_OK: the delta takes *count ints there.
 * CEF_SCRATCH_TOO_SHORT: scratch_len < CEF_SCRATCH_INTS.
 * CEF_INPUT_TOO_LONG: src_len > CEF_INPUT_MOST.
 * CEF_UNEXPECTED_END, CEF_INT_OUT_OF_RANGE, CEF_DELETED_ITEMS_UNPACKING,
 * CEF_ITEM_DIFFS_UNPACKING, CEF_TYPE_ID_RANGE, CEF_ID_RANGE,
 * CEF_NEGATIVE_SIZE: no delta.
 * CEF_CAPACITY_ERROR: the delta does not fit. Deleted keys and updates that
 * are repeated are counted each time, as if each had its place.
 * A refused call leaves `out` and *count.
 *
 * `scratch` is zeros afterwards, refused or not. `warnings`: all counts up to
 * the refusal are set.
 *
 * Where keys do not rise and scratch_len is less than twice the number of
 * deleted keys or updates, the ints are looked through several times.
 */
uint32_t cef_delta_read_from_ints(const int32_t *src, size_t src_len,
                                  const int32_t *sizes, size_t sizes_len,
                                  int32_t *out, size_t out_len,
                                  int32_t *scratch, size_t scratch_len,
                                  size_t *count,
                                  size_t warnings[CEF_WARNINGS]);

/*
 * Reads the packed delta that the `src_len` bytes at `src` hold. Answers as
 * cef_delta_read_from_ints does, and CEF_SCRATCH_TOO_SHORT also where
 * scratch_len < src_len.
 *
 * CEF_NON_ZERO_INT_PADDING: a padding bit of an integer is set. It is judged
 * where that integer is read: what is wrong before it is refused first. Type
 * and id of an update are both read before either is judged.
 */
uint32_t cef_delta_read(const uint8_t *src, size_t src_len,
                        const int32_t *sizes, size_t sizes_len, int32_t *out,
                        size_t out_len, int32_t *scratch, size_t scratch_len,
                        size_t *count, size_t warnings[CEF_WARNINGS]);

/* ---- Differences of single items ---- */

/*
 * Writes what is to be added to the `from_len` ints at `from` for the `to_len`
 * ints at `to`, modulo 2^32, to the front of the `out_len` ints at `out`.
 * Where has_from is 0 there is no item to begin with, `from` is not looked at
 * and the ints are those at `to`.
 *
 * CEF_OK: *count ints are written, to_len of them.
 * CEF_DELTA_DIFFERING_SIZES: has_from is not 0, and from_len != to_len.
 * CEF_CAPACITY_ERROR: out_len < to_len.
 * A refused call leaves `out` and *count.
 */
uint32_t cef_create_item_delta(uint32_t has_from, const int32_t *from,
                               size_t from_len, const int32_t *to,
                               size_t to_len, int32_t *out, size_t out_len,
                               size_t *count);

/*
 * Adds the `delta_len` differences at `delta` to the `from_len` ints at
 * `from`, modulo 2^32, in the front of the `out_len` ints at `out`. Where
 * has_from is 0 the ints are those at `delta`. Answers as
 * cef_create_item_delta does.
 */
uint32_t cef_apply_item_delta(uint32_t has_from, const int32_t *from,
                              size_t from_len, const int32_t *delta,
                              size_t delta_len, int32_t *out, size_t out_len,
                              size_t *count);

/* ---- Messages ---- */

/* The most bytes of a message, and the most parts of a delta. */
#define CEF_PART_BYTES 900
#define CEF_PARTS 32

/*
 * The most bytes of a packed delta that a printer takes: an output area of
 * this length suffices for cef_delta_write. Longer deltas can be written and
 * cut too, but the receiver refuses their parts (CEF_INVALID_NUM_PARTS).
 */
#define CEF_PACKED_BYTES (CEF_PARTS * CEF_PART_BYTES)

/* What a message is. */
#define CEF_MESSAGE_NONE 0u
#define CEF_MESSAGE_SNAP 1u
#define CEF_MESSAGE_EMPTY 2u
#define CEF_MESSAGE_SINGLE 3u

/* The place of each number of a message in an array. */
#define CEF_MESSAGE_TICK 0
#define CEF_MESSAGE_DISTANCE 1
#define CEF_MESSAGE_NUM_PARTS 2
#define CEF_MESSAGE_PART 3
#define CEF_MESSAGE_CRC 4
#define CEF_MESSAGE_NUMBERS 5

/*
 * How many messages carry the `data_len` bytes of a delta: an empty one, a
 * single one of up to CEF_PART_BYTES, or parts of CEF_PART_BYTES.
 *
 * CEF_OK: *count is set.
 * CEF_INPUT_TOO_LONG: data_len > CEF_INPUT_MOST. *count is left.
 */
uint32_t cef_num_chunks(const uint8_t *data, size_t data_len, size_t *count);

/*
 * Message `i` of those that carry the `data_len` bytes of a delta from the
 * table of tick `delta_tick` to that of tick `tick`, whose sum is `crc`. In
 * place of `delta_tick` the message carries the distance, which wraps.
 *
 * CEF_OK: *kind is set. Where it is not CEF_MESSAGE_NONE, `numbers` are those
 * of the message, 0 where it has no such number, and *len is how many bytes
 * it carries: those at data + CEF_PART_BYTES * i. Else `numbers` are left, and
 * *len is 0.
 * CEF_INPUT_TOO_LONG: *kind, `numbers` and *len are left.
 */
uint32_t cef_chunk(cef_tick tick, cef_tick delta_tick, const uint8_t *data,
                   size_t data_len, int32_t crc, size_t i, uint32_t *kind,
                   int32_t numbers[CEF_MESSAGE_NUMBERS], size_t *len);

/* ---- Receiver ---- */

/* How many bytes each of the two part areas has at least. */
#define CEF_PART_AREA_BYTES 28800

/* What a message brings. */
#define CEF_RECEIVED_NOTHING 0u
#define CEF_RECEIVED_DELTA 1u
#define CEF_RECEIVED_EMPTY 2u

/* The place of each number of a delta that was received in an array. */
#define CEF_RECEIVED_TICK 0
#define CEF_RECEIVED_DELTA_TICK 1
#define CEF_RECEIVED_CRC 2
#define CEF_RECEIVED_NUMBERS 3

/*
 * A receiver of the parts of deltas. cef_receiver_new sets it; between calls
 * a program keeps it beside the first part area and changes neither.
 *
 * ticks: the last finished tick, the unfinished one, its base, its sum.
 * counts: whether there is a finished tick, whether there is an unfinished
 * one, how many parts that has. A flag that is not 0 says yes.
 * lengths: of each part that is in, how long it is; above CEF_PART_BYTES for
 * one that is missing.
 *
 * A call that changes the receiver writes 0 or 1 as a flag, and 0 where there
 * is no such number. A refused call leaves the three arrays entry for entry.
 *
 * The calls take the three arrays one by one.
 */
typedef struct {
    int32_t ticks[4];
    uint32_t counts[3];
    uint16_t lengths[CEF_PARTS];
} cef_receiver;

/* A receiver without any tick. */
void cef_receiver_new(int32_t ticks[4], uint32_t counts[3],
                      uint16_t lengths[CEF_PARTS]);

/* Forgets both ticks. */
void cef_receiver_reset(int32_t ticks[4], uint32_t counts[3],
                        uint16_t lengths[CEF_PARTS]);

/*
 * Takes a part of a delta, with the message's five numbers and its bytes.
 * Part p goes to byte CEF_PART_BYTES * p of the `parts_len` bytes at `parts`;
 * the last part missing joins all of them in the front of the `joined_len`
 * bytes at `joined`. The first part of a tick fixes base, part count and sum
 * of the delta.
 *
 * CEF_OK: *kind is set. Where it is CEF_RECEIVED_DELTA, `received` are the
 * numbers of the delta, and *len bytes stand in `joined`. Else `received`,
 * *len and `joined` are left.
 * CEF_NOT_IN_FORM: the receiver is none that a call leaves.
 * CEF_SCRATCH_TOO_SHORT: parts_len or joined_len < CEF_PART_AREA_BYTES.
 * CEF_PART_TOO_LONG: data_len > CEF_PART_BYTES.
 * CEF_RECEIVER_OLD_DELTA, CEF_INVALID_NUM_PARTS, CEF_INVALID_PART,
 * CEF_DUPLICATE_PART, judged in this order.
 * A refused call leaves the receiver, both areas and all outputs but
 * `warnings`.
 *
 * `warnings`: all counts of this call are set, refused or not.
 * CEF_WARN_DIFFERING_ATTRIBUTES is counted once if the part's base, part count
 * or sum is not the one that the first part of its tick fixed, also if the
 * part is then refused with CEF_DUPLICATE_PART.
 */
uint32_t cef_receiver_snap(int32_t ticks[4], uint32_t counts[3],
                           uint16_t lengths[CEF_PARTS], cef_tick tick,
                           cef_distance distance, int32_t num_parts,
                           int32_t part, int32_t crc, const uint8_t *data,
                           size_t data_len, uint8_t *parts, size_t parts_len,
                           uint8_t *joined, size_t joined_len, uint32_t *kind,
                           int32_t received[CEF_RECEIVED_NUMBERS], size_t *len,
                           size_t warnings[CEF_WARNINGS]);

/*
 * Takes a whole delta, whose bytes go to the front of `joined`. Answers as
 * cef_receiver_snap does: CEF_NOT_IN_FORM, CEF_SCRATCH_TOO_SHORT,
 * CEF_PART_TOO_LONG, CEF_RECEIVER_OLD_DELTA.
 */
uint32_t cef_receiver_snap_single(int32_t ticks[4], uint32_t counts[3],
                                  uint16_t lengths[CEF_PARTS], cef_tick tick,
                                  cef_distance distance, int32_t crc,
                                  const uint8_t *data, size_t data_len,
                                  uint8_t *joined, size_t joined_len,
                                  uint32_t *kind,
                                  int32_t received[CEF_RECEIVED_NUMBERS],
                                  size_t *len, size_t warnings[CEF_WARNINGS]);

/*
 * Takes an empty delta: *kind is CEF_RECEIVED_EMPTY, the sum and *len are 0.
 * Refused: CEF_NOT_IN_FORM, CEF_RECEIVER_OLD_DELTA, as cef_receiver_snap.
 */
uint32_t cef_receiver_snap_empty(int32_t ticks[4], uint32_t counts[3],
                                 uint16_t lengths[CEF_PARTS], cef_tick tick,
                                 cef_distance distance, uint32_t *kind,
                                 int32_t received[CEF_RECEIVED_NUMBERS],
                                 size_t *len, size_t warnings[CEF_WARNINGS]);

/* ---- The store ---- */

/* The most tables that a store holds. */
#define CEF_STORED_TABLES 100

/* The most ints of a store's area that tables can take. */
#define CEF_STORE_INTS (CEF_STORED_TABLES * (2 + CEF_TABLE_INTS))

/*
 * A store of tables by tick, the newest first. cef_storage_new sets it;
 * between calls a program keeps it beside its area and changes neither.
 *
 * ticks: the tick acknowledged last, the tick of the base that is set.
 * counts: how many tables are held, whether a tick is acknowledged, whether a
 * base is set. A flag that is not 0 says yes.
 *
 * The area holds for each table its tick, how many ints it takes and these
 * ints, and zeros behind the last one: 2 ints and the table's own for each
 * table held. An area of zeros goes with a new store. A call looks at all of
 * the area that it is lent, the zeros too: one that is lent no more than the
 * tables held and the next one take is quicker. CEF_NOT_IN_FORM means
 * that the counts and the area do not agree, or that more than
 * CEF_STORED_TABLES are told; everything that was lent is then left, but for
 * scratch and the counts of warnings. Where a call other than
 * cef_storage_reset leaves the store as it was, the two arrays are left entry
 * for entry. Else they are written with 0 or 1 as a flag, and 0 where there is
 * no such tick.
 *
 * The calls take the two arrays one by one.
 */
typedef struct {
    int32_t ticks[2];
    uint32_t counts[3];
} cef_storage;

/* A store without tables. */
void cef_storage_new(int32_t ticks[2], uint32_t counts[3]);

/*
 * Empties the store and sets its area to zeros, whatever they held. No tick
 * is acknowledged; the base that is set stays.
 */
void cef_storage_reset(int32_t ticks[2], uint32_t counts[3], int32_t *area,
                       size_t area_len);

/*
 * CEF_OK: *end is 0 and *tick the tick of table `i`, the newest being 0, or
 * *end is 1 and *tick left where no more than `i` tables are held.
 * CEF_NOT_IN_FORM: *tick and *end are left.
 */
uint32_t cef_storage_snap_tick(const int32_t ticks[2],
                               const uint32_t counts[3], const int32_t *area,
                               size_t area_len, size_t i, cef_tick *tick,
                               uint32_t *end);

/*
 * Copies table `i`, the newest being 0, to the front of the `out_len` ints at
 * `out`.
 *
 * CEF_OK: *count ints are written. They are none where no more than `i`
 * tables are held, and where the store is not in form: cef_storage_snap_tick
 * tells these apart.
 * CEF_CAPACITY_ERROR: `out` and *count are left.
 */
uint32_t cef_storage_snap(const int32_t ticks[2], const uint32_t counts[3],
                          const int32_t *area, size_t area_len, size_t i,
                          int32_t *out, size_t out_len, size_t *count);

/*
 * Sets the base of the tables that are added next. The first table older than
 * `tick`, from the newest side, and all behind it are dropped; the base must
 * then be the oldest. A negative tick sets none and drops nothing.
 *
 * CEF_OK: the base is set, or none is.
 * CEF_NOT_IN_FORM: all is left.
 * CEF_UNKNOWN_SNAP: no such table is held. Older tables are dropped, and no
 * base is set.
 *
 * `warnings`: all counts of this call are set, refused or not.
 */
uint32_t cef_storage_set_delta_tick(int32_t ticks[2], uint32_t counts[3],
                                    cef_tick tick, int32_t *area,
                                    size_t area_len,
                                    size_t warnings[CEF_WARNINGS]);

/*
 * Adds the table in `table` as the newest, for `tick`, and makes its delta in
 * the front of the `delta_len` ints at `delta`: against the oldest table then
 * held, this one included, where a base is set, else against the empty table.
 * CEF_DELTA_INTS have room for any delta between two tables.
 *
 * CEF_OK: *base is the tick of the delta's base, -1 for the empty table, and
 * the delta takes *count ints. *clash is left.
 * CEF_NOT_IN_FORM: the store is not in form, or `table` holds no table.
 * CEF_STORE_FULL: CEF_STORED_TABLES are held.
 * CEF_DELTA_DIFFERING_SIZES: base and table have an item with the key *clash,
 * with data of different lengths; of all such keys it is the least one, read
 * as unsigned.
 * CEF_CAPACITY_ERROR: the store or the delta does not fit its area.
 * Judged in this order. A refused call leaves the store, both areas and all
 * outputs but the key of CEF_DELTA_DIFFERING_SIZES.
 */
uint32_t cef_storage_add_snap(int32_t ticks[2], uint32_t counts[3],
                              cef_tick tick, const int32_t *table,
                              size_t table_len, int32_t *delta,
                              size_t delta_len, int32_t *area,
                              size_t area_len, cef_tick *base, size_t *count,
                              int32_t *clash);

/*
 * Takes the delta in `delta` for `tick` and applies it to the table of tick
 * `delta_tick`, or to the empty table where that is negative. Tables older
 * than the base are dropped, and the base must then be the oldest. The table
 * that the delta makes is held as the newest and acknowledged; the 101st
 * pushes out the oldest. Where has_crc is not 0, its sum must be `crc`.
 *
 * CEF_OK: the table is held.
 * CEF_NOT_IN_FORM: the store is not in form, or `delta` holds no delta.
 * CEF_SCRATCH_TOO_SHORT: scratch_len < CEF_SCRATCH_INTS.
 * CEF_STORAGE_OLD_DELTA: `tick` is not above the newest that is held, or not
 * above -1 where none is.
 * These leave the store and its area.
 * CEF_UNKNOWN_SNAP: no such base is held. No tick is acknowledged.
 * CEF_TOO_MANY_ITEMS, CEF_TOO_LONG_SNAP, CEF_DELTA_DIFFERING_SIZES, then
 * CEF_INVALID_UUID_TYPE, CEF_DUPLICATE_UUID_TYPE, CEF_MISSING_UUID_TYPE: the
 * delta makes no table on this base, or one whose types are not sound.
 * CEF_INVALID_CRC: the sum is another. No tick is acknowledged.
 * CEF_CAPACITY_ERROR: the store does not fit its area.
 * These have dropped the tables older than the base, and hold no new one.
 *
 * `scratch` is zeros afterwards, refused or not. `warnings`: all counts up to
 * the refusal are set.
 */
uint32_t cef_storage_add_delta(int32_t ticks[2], uint32_t counts[3],
                               uint32_t has_crc, int32_t crc,
                               cef_tick delta_tick, cef_tick tick,
                               const int32_t *delta, size_t delta_len,
                               int32_t *area, size_t area_len,
                               int32_t *scratch, size_t scratch_len,
                               size_t warnings[CEF_WARNINGS]);

/* ---- The manager ---- */

/* The least scratch of a manager, in ints. */
#define CEF_MANAGER_SCRATCH_INTS 28800

/*
 * The manager of a printer: a receiver and a store. cef_manager_new sets both;
 * between calls a program keeps them beside the first part area and the
 * store's area and changes nothing of them.
 *
 * The calls take the receiver's three arrays, here `receiver_ticks`,
 * `receiver_counts` and `lengths`, and the store's two one by one.
 */
typedef struct {
    cef_receiver receiver;
    cef_storage storage;
} cef_manager;

/* A receiver without any tick, and a store without tables. */
void cef_manager_new(int32_t receiver_ticks[4], uint32_t receiver_counts[3],
                     uint16_t lengths[CEF_PARTS], int32_t ticks[2],
                     uint32_t counts[3]);

/*
 * Forgets the receiver's ticks, and empties the store and its area as
 * cef_storage_reset does.
 */
void cef_manager_reset(int32_t receiver_ticks[4], uint32_t receiver_counts[3],
                       uint16_t lengths[CEF_PARTS], int32_t ticks[2],
                       uint32_t counts[3], int32_t *area, size_t area_len);

/*
 * Takes a part of a delta, with the message's five numbers and its bytes. The
 * last part missing has all of them joined in `joined`, the delta read into
 * the front of `delta` under the known sizes, and taken by the store with its
 * sum, as cef_receiver_snap, cef_delta_read and cef_storage_add_delta do.
 *
 * parts_len and joined_len are CEF_PART_AREA_BYTES or more, scratch_len
 * CEF_MANAGER_SCRATCH_INTS or more. CEF_DELTA_INTS have room for any delta
 * between two tables; a received one takes as many ints as it says. The
 * store's area has room for 2 ints and the table's own for each table held.
 *
 * CEF_OK: *taken is 1 and *ack the tick of the table that is now held and
 * acknowledged, or *taken is 0 and *ack left where parts are missing.
 * CEF_NOT_IN_FORM: the receiver is none that a call leaves, or the store is
 * not in form.
 * CEF_SCRATCH_TOO_SHORT: scratch or a part area is too short.
 * CEF_PART_TOO_LONG, CEF_RECEIVER_OLD_DELTA, CEF_INVALID_NUM_PARTS,
 * CEF_INVALID_PART, CEF_DUPLICATE_PART: as cef_receiver_snap.
 * These leave the receiver, the store and all areas but scratch.
 * The refusals of cef_delta_read, CEF_NON_ZERO_INT_PADDING and
 * CEF_CAPACITY_ERROR for `delta` among them: the receiver has finished the
 * tick, and `delta`, the store and its area are left.
 * The refusals of cef_storage_add_delta from CEF_STORAGE_OLD_DELTA on: the
 * receiver has finished the tick, `delta` holds the delta, and the store is
 * as there.
 * Judged in this order. A refused call leaves *taken and *ack.
 *
 * Where the ticks of the receiver or the store are left as they were, so are
 * their two arrays, entry for entry; else these are written as
 * cef_receiver_snap and cef_storage_add_delta write them.
 *
 * `scratch` is zeros afterwards, refused or not. `warnings`: all counts up to
 * the refusal are set.
 */
uint32_t cef_manager_snap(int32_t receiver_ticks[4],
                          uint32_t receiver_counts[3],
                          uint16_t lengths[CEF_PARTS], int32_t ticks[2],
                          uint32_t counts[3], cef_tick tick,
                          cef_distance distance, int32_t num_parts,
                          int32_t part, int32_t crc, const uint8_t *data,
                          size_t data_len, const int32_t *sizes,
                          size_t sizes_len, uint8_t *parts, size_t parts_len,
                          uint8_t *joined, size_t joined_len, int32_t *delta,
                          size_t delta_len, int32_t *area, size_t area_len,
                          int32_t *scratch, size_t scratch_len,
                          uint32_t *taken, cef_tick *ack,
                          size_t warnings[CEF_WARNINGS]);

/*
 * Takes a whole delta. Answers as cef_manager_snap does, but for
 * CEF_INVALID_NUM_PARTS, CEF_INVALID_PART and CEF_DUPLICATE_PART.
 */
uint32_t cef_manager_snap_single(
    int32_t receiver_ticks[4], uint32_t receiver_counts[3],
    uint16_t lengths[CEF_PARTS], int32_t ticks[2], uint32_t counts[3],
    cef_tick tick, cef_distance distance, int32_t crc, const uint8_t *data,
    size_t data_len, const int32_t *sizes, size_t sizes_len, uint8_t *parts,
    size_t parts_len, uint8_t *joined, size_t joined_len, int32_t *delta,
    size_t delta_len, int32_t *area, size_t area_len, int32_t *scratch,
    size_t scratch_len, uint32_t *taken, cef_tick *ack,
    size_t warnings[CEF_WARNINGS]);

/*
 * Takes an empty delta: the table is its base again, and no sum is compared.
 * `delta` then holds the empty delta, three ints. Answers as
 * cef_manager_snap_single does, but for CEF_PART_TOO_LONG and the refusals of
 * cef_delta_read other than CEF_CAPACITY_ERROR.
 */
uint32_t cef_manager_snap_empty(
    int32_t receiver_ticks[4], uint32_t receiver_counts[3],
    uint16_t lengths[CEF_PARTS], int32_t ticks[2], uint32_t counts[3],
    cef_tick tick, cef_distance distance, uint8_t *parts, size_t parts_len,
    uint8_t *joined, size_t joined_len, int32_t *delta, size_t delta_len,
    int32_t *area, size_t area_len, int32_t *scratch, size_t scratch_len,
    uint32_t *taken, cef_tick *ack, size_t warnings[CEF_WARNINGS]);

#ifdef __cplusplus
}
#endif

#endif

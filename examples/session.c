/* A controller and a printer: one table, one message. Build: cc -I include examples/session.c target/staticlib/libcefdugar.a */
#include "cefdugar.h"
#include <stdio.h>

#define AREA 4096 /* room for a few small tables; CEF_STORE_INTS always suffices */
static int32_t table[CEF_TABLE_INTS], delta[CEF_DELTA_INTS], area[AREA];
static int32_t store[AREA], received[CEF_DELTA_INTS], scratch[CEF_MANAGER_SCRATCH_INTS];
static uint8_t packed[CEF_PACKED_BYTES], parts[CEF_PART_AREA_BYTES], joined[CEF_PART_AREA_BYTES];
static const int32_t no_sizes[1], no_kind[CEF_UUID_INTS], rule[] = {42, 7, 1};

int main(void) {
    /* Controller: build a table with one item of type 1 and id 5, add it at tick 0, pack its delta. */
    cef_storage c;
    cef_tick base;
    int32_t clash, crc;
    size_t count, ints, bytes;
    cef_storage_new(c.ticks, c.counts);
    cef_builder_new(table, CEF_TABLE_INTS, &count);
    cef_builder_add_item(table, CEF_TABLE_INTS, 0, 1, no_kind, 5, rule, 3, &count);
    cef_storage_add_snap(c.ticks, c.counts, 0, table, count, delta, CEF_DELTA_INTS, area, AREA, &base, &ints, &clash);
    cef_table_crc(table, count, &crc);
    cef_delta_write(delta, ints, no_sizes, 0, packed, sizeof packed, &bytes);

    /* Radio: up to 900 bytes go in one message. */
    uint32_t kind;
    int32_t n[CEF_MESSAGE_NUMBERS];
    size_t len;
    cef_chunk(0, base, packed, bytes, crc, 0, &kind, n, &len);

    /* Printer: the message goes to the manager, which holds the table and acknowledges its tick. */
    cef_manager p;
    uint32_t taken = 0;
    cef_tick ack;
    size_t warnings[CEF_WARNINGS];
    cef_manager_new(p.receiver.ticks, p.receiver.counts, p.receiver.lengths, p.storage.ticks, p.storage.counts);
    uint32_t refusal = cef_manager_snap_single(
        p.receiver.ticks, p.receiver.counts, p.receiver.lengths, p.storage.ticks, p.storage.counts,
        n[CEF_MESSAGE_TICK], n[CEF_MESSAGE_DISTANCE], n[CEF_MESSAGE_CRC], packed, len, no_sizes, 0,
        parts, sizeof parts, joined, sizeof joined, received, CEF_DELTA_INTS, store, AREA,
        scratch, CEF_MANAGER_SCRATCH_INTS, &taken, &ack, warnings);
    if (refusal == CEF_OK && taken)
        printf("tick %d is held and acknowledged\n", (int)ack);
    return 0;
}

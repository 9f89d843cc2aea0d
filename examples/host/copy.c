/* Sealing and judging one copy of a place. */
#include "copy.h"
#include <string.h>

enum {
    MARK_AT = 0,
    PLACE_AT = 4,
    BYTES_AT = 8,
    GROUP_AT = BYTES_AT + DRIVE_PLACE_BYTES,
    STORES_AT = GROUP_AT + 4,
    SUM_AT = STORES_AT + 4,
    UNGROUPED_SUM_AT = GROUP_AT,
};

/* Before there were groups a copy had the other mark, and its checksum after the bytes. */
static const uint8_t mark[4] = { 'D', 'z', 'k', '2' }, ungrouped_mark[4] = { 'D', 'z', 'k', '1' };

/* CRC-32, four bits at a time. A block that was being written when the power failed holds part of the old bytes and part of the new, or
 * anything at all: such a block passes once in four thousand million times. */
static uint32_t sum_of(const uint8_t *bytes, size_t length)
{
    static const uint32_t of_four_bits[16] = {
        0x00000000, 0x1DB71064, 0x3B6E20C8, 0x26D930AC, 0x76DC4190, 0x6B6B51F4, 0x4DB26158, 0x5005713C,
        0xEDB88320, 0xF00F9344, 0xD6D6A3E8, 0xCB61B38C, 0x9B64C2B0, 0x86D3D2D4, 0xA00AE278, 0xBDBDF21C,
    };
    uint32_t sum = 0xFFFFFFFF;
    for (size_t i = 0; i < length; i++) {
        sum = sum >> 4 ^ of_four_bits[(sum ^ bytes[i]) & 15];
        sum = sum >> 4 ^ of_four_bits[(sum ^ bytes[i] >> 4) & 15];
    }
    return ~sum;
}

static void put_number(uint8_t *at, uint32_t number)
{
    for (int i = 0; i < 4; i++)
        at[i] = (uint8_t)(number >> (24 - 8 * i));
}

static uint32_t number_at(const uint8_t *at)
{
    return (uint32_t)at[0] << 24 | (uint32_t)at[1] << 16 | (uint32_t)at[2] << 8 | at[3];
}

void copy_seal(uint8_t copy[COPY_BYTES], uint32_t place, struct copy_group group, const uint8_t bytes[DRIVE_PLACE_BYTES])
{
    memcpy(copy + MARK_AT, mark, sizeof mark);
    put_number(copy + PLACE_AT, place);
    memcpy(copy + BYTES_AT, bytes, DRIVE_PLACE_BYTES);
    put_number(copy + GROUP_AT, group.number);
    put_number(copy + STORES_AT, group.stores);
    put_number(copy + SUM_AT, sum_of(copy, SUM_AT));
}

static int is_whole(const uint8_t copy[COPY_BYTES], uint32_t place, const uint8_t with_mark[4], size_t sum_at)
{
    if (memcmp(copy + MARK_AT, with_mark, sizeof mark) != 0 || number_at(copy + PLACE_AT) != place)
        return 0;
    return number_at(copy + sum_at) == sum_of(copy, sum_at);
}

int copy_unseal(const uint8_t copy[COPY_BYTES], uint32_t place, struct copy_group *group, uint8_t bytes[DRIVE_PLACE_BYTES])
{
    struct copy_group none = { 0, 0 }, grouped = { number_at(copy + GROUP_AT), number_at(copy + STORES_AT) };
    int is_grouped = is_whole(copy, place, mark, SUM_AT);
    if (!is_grouped && !is_whole(copy, place, ungrouped_mark, UNGROUPED_SUM_AT))
        return 0;
    *group = is_grouped ? grouped : none;
    memcpy(bytes, copy + BYTES_AT, DRIVE_PLACE_BYTES);
    return 1;
}

int copy_is_ungrouped(const uint8_t copy[COPY_BYTES])
{
    return memcmp(copy + MARK_AT, ungrouped_mark, sizeof ungrouped_mark) == 0;
}

/*
 * How libFuzzer changes an input: mostly by whole calls, with the head and the
 * count put right afterwards, so that most jobs run; else by any bytes.
 */
#include <stdbool.h>
#include <stdint.h>
#include <string.h>

#include "input.h"

size_t LLVMFuzzerMutate(uint8_t *data, size_t size, size_t max_size);
size_t LLVMFuzzerCustomMutator(uint8_t *data, size_t size, size_t max_size,
                               unsigned int seed);

static uint32_t state;

static uint32_t below(uint32_t limit)
{
    state = state * 1664525u + 1013904223u;
    return (state >> 8) % limit;
}

#define ONE_OF(table) ((table)[below(sizeof (table) / sizeof *(table))])

/* A call --------------------------------------------------------------- */

enum { ACR = 0x40023C00, KEYR = 0x40023C04, OPTKEYR = 0x40023C08,
       SR = 0x40023C0C, CR = 0x40023C10, OPTCR = 0x40023C14 };

static void put(uint8_t *bytes, uint64_t value, unsigned width)
{
    unsigned i;

    for (i = 0; i < width; i++)
        bytes[i] = (uint8_t)(value >> 8 * i);
}

static void put_call(uint8_t *record, unsigned kind, unsigned who,
                     unsigned width, uint32_t number, uint64_t value)
{
    memset(record, 0, RECORD);
    record[0] = (uint8_t)kind;
    record[1] = (uint8_t)who;
    record[2] = (uint8_t)width;
    put(record + 4, number, 4);
    put(record + 8, value, width);
}

static uint32_t some_address(void)
{
    static const uint32_t starts[] = {
        0x08000000, 0x08003FF0, 0x08008000, 0x0800FFF8, 0x08010000,
        0x080FFFF8, 0x1FFF0000, 0x1FFF77F8, 0x1FFF7800, 0x1FFF79F8,
        0x1FFF7A00, 0x1FFF7A08, 0x1FFFC000, 0x1FFFC008, 0x40023C00,
        0x40023C10, 0x40023FF8, 0x40024000, 0x40024800, 0x40024FF0,
        0x40024FF8, 0xFFFFFFF8,
    };

    return ONE_OF(starts) + below(16);
}

static uint32_t some_time(void)
{
    static const uint32_t times[] = {
        0, 1, 2, 499, 500, 998, 999, 1000, 1001, 2000, 60000, 120000, 120001,
        500000, 60000000, 120000000, 120000001,
    };

    return ONE_OF(times);
}

/* Fields that start something more often than by chance. */
static uint32_t some_fields(uint32_t reg)
{
    static const uint32_t rdp[] = {0xAA00, 0xCC00, 0x5500, 0x0000, 0xFF00};
    uint32_t chance = below(0x1000000) << 8 | below(0x100);

    if (reg == ACR)         /* sides on, off and emptied */
        return below(0x20) << 8;
    if (reg == CR)
        return (chance & 0x8301037F) | below(2) << 16 | 1u << below(3);
    if (reg == OPTCR)
        return (chance & 0x0FFF00EC) | ONE_OF(rdp) | below(2) << 1;
    return chance;
}

/* Mostly from main flash of every part. */
static void put_fetch(uint8_t *record)
{
    uint32_t address = some_address();

    if (below(8) != 0)
        address = 0x08000000 + address % 0x4000;
    put_call(record, 7, 0, 4, address, 0);
}

static void put_some_call(uint8_t *record)
{
    static const uint32_t registers[] = {ACR, ACR, SR, CR, CR, OPTCR, OPTCR};
    static const uint8_t widths[] = {1, 2, 4, 8};
    unsigned kind = below(11), who = below(4) == 0;
    uint32_t reg = ONE_OF(registers);

    if (kind == 0)
        put_call(record, 0, 0, 0, below(2) * below(3), 0);
    else if (kind < 3)
        put_call(record, kind, 0, 0, 0, 0);
    else if (kind == 3)
        put_call(record, 3, who, ONE_OF(widths), some_address(), 0);
    else if (kind == 4)
        put_call(record, 4, who, ONE_OF(widths), some_address(),
                 (uint64_t)below(0x1000000) << 40 | below(0x1000000));
    else if (kind < 7)
        put_call(record, kind, 0, 0, some_time(), 0);
    else if (kind == 7)
        put_fetch(record);
    else if (kind == 8)
        put_call(record, 3, who, 4, reg, 0);
    else
        put_call(record, 4, who, 4, reg, some_fields(reg));
}

/* A change to the list of calls ---------------------------------------- */

static void insert(uint8_t *calls, size_t count, size_t at, size_t more)
{
    memmove(calls + RECORD * (at + more), calls + RECORD * at,
            RECORD * (count - at));
}

static void put_keys(uint8_t *record)
{
    bool option = below(2);

    put_call(record, 4, 0, 4, option ? OPTKEYR : KEYR,
             option ? 0x08192A3B : 0x45670123);
    put_call(record + RECORD, 4, 0, 4, option ? OPTKEYR : KEYR,
             option ? 0x4C5D6E7F : 0xCDEF89AB);
}

/* The new count; there is room for `room` calls, and there is one or more. */
static size_t change_calls(uint8_t *calls, size_t count, size_t room)
{
    size_t at = below((uint32_t)count);
    uint8_t *record = calls + RECORD * at;

    switch (below(6)) {
    case 0:
        LLVMFuzzerMutate(record, RECORD, RECORD);
        return count;
    case 1:
        if (count == 1)
            return count;
        memmove(record, record + RECORD, RECORD * (count - at - 1));
        return count - 1;
    case 2:
        if (count + 2 > room)
            return count;
        insert(calls, count, at, 2);
        put_keys(record);
        return count + 2;
    case 3:
        memcpy(record, calls + RECORD * below((uint32_t)count), RECORD);
        return count;
    case 4:
        if (count + 1 > room)
            return count;
        insert(calls, count, at, 1);
        put_some_call(record);
        return count + 1;
    default:
        put_some_call(record);
        return count;
    }
}

size_t LLVMFuzzerCustomMutator(uint8_t *data, size_t size, size_t max_size,
                               unsigned int seed)
{
    uint8_t *job = data + SETTING;
    size_t room, count, changes;

    state = seed;
    if (size < SETTING + HEAD + RECORD || below(16) == 0)
        return LLVMFuzzerMutate(data, size, max_size);
    room = (max_size - SETTING - HEAD) / RECORD;
    count = (size - SETTING - HEAD) / RECORD;
    if (below(8) == 0)
        LLVMFuzzerMutate(data, SETTING, SETTING);
    for (changes = 1 + below(4); changes > 0; changes--)
        count = change_calls(job + HEAD, count, room);
    if (below(64) == 0)
        count = 0;
    memcpy(job, "FJB\1\0", 5);
    put(job + 5, count, 2);
    return SETTING + HEAD + RECORD * count;
}

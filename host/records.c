/*
 * Malformed calls, refusal 5. Each stands behind a job that would program a
 * byte, which shows that no call has run.
 */
#include <string.h>

#include "bench.h"
#include "calls.h"
#include "cases.h"

enum {
    KINDS = 8,
    READ = FLASH_KIND_READ,
    WRITE = FLASH_KIND_WRITE,
    FETCH = FLASH_KIND_FETCH
};

/* One sound call of each kind. */
static const uint8_t sound[KINDS][16] = {
    {0},
    {1},
    {2},
    {3, 0, 4, 0, 0x0C, 0x3C, 0x02, 0x40},
    {4, 0, 4, 0, 0x0C, 0x3C, 0x02, 0x40, 0xF3},
    {5, 0, 0, 0, 10},
    {6, 0, 0, 0, 10},
    {7, 0, 4, 0, 0x01, 0x00, 0x00, 0x08},
};

static const char *const kind_name[KINDS] = {
    "reset", "on", "off", "read", "write", "pass", "wait", "fetch",
};

/* The bytes of a record that its kind does not use, marked with x. */
static const char *const unused[KINDS] = {
    ".xxx....xxxxxxxx",
    ".xxxxxxxxxxxxxxx",
    ".xxxxxxxxxxxxxxx",
    "...x....xxxxxxxx",
    "...x............",
    ".xxx....xxxxxxxx",
    ".xxx....xxxxxxxx",
    ".x.x....xxxxxxxx",
};

/* A sound call of that kind with one byte of it replaced. */
static void malformed(unsigned kind, unsigned place, uint8_t byte)
{
    uint8_t bytes[16];

    memcpy(bytes, sound[kind], 16);
    bytes[place] = byte;
    lend_part(1);
    changing_job();
    record(bytes);
    run(5, "%s with byte %u at %02X", kind_name[kind], place, byte);
}

static void unused_fields(void)
{
    unsigned kind, place;

    for (kind = 0; kind < KINDS; kind++) {
        for (place = 0; place < 16; place++) {
            if (unused[kind][place] != 'x')
                continue;
            malformed(kind, place, 0x01);
            malformed(kind, place, 0x80);
        }
    }
}

static void unknown_fields(void)
{
    static const uint8_t kinds[] = {8, 9, 128, 255};
    static const uint8_t whos[] = {2, 3, 128, 255};
    static const uint8_t widths[] = {0, 3, 5, 6, 7, 9, 16, 64, 128, 255};
    static const uint8_t others[] = {1, 2, 8};     /* for a fetch */
    unsigned i;

    for (i = 0; i < sizeof kinds; i++)
        malformed(0, 0, kinds[i]);
    for (i = 0; i < sizeof whos; i++) {
        malformed(READ, FLASH_RECORD_WHO_AT, whos[i]);
        malformed(WRITE, FLASH_RECORD_WHO_AT, whos[i]);
    }
    for (i = 0; i < sizeof widths; i++) {
        malformed(READ, FLASH_RECORD_WIDTH_AT, widths[i]);
        malformed(WRITE, FLASH_RECORD_WIDTH_AT, widths[i]);
        malformed(FETCH, FLASH_RECORD_WIDTH_AT, widths[i]);
    }
    for (i = 0; i < sizeof others; i++)
        malformed(FETCH, FLASH_RECORD_WIDTH_AT, others[i]);
}

static void unknown_boots(void)
{
    malformed(0, 4, 3);
    malformed(0, 4, 255);
    malformed(0, 5, 1);
    malformed(0, 6, 1);
    malformed(0, 7, 1);
    malformed(0, 7, 0x80);
}

/* One bit in a byte of the value that the width does not reach. */
static void too_big(uint8_t width, unsigned place)
{
    uint8_t bytes[16] = {WRITE, 0, 0, 0, 0x0C, 0x3C, 0x02, 0x40};

    bytes[FLASH_RECORD_WIDTH_AT] = width;
    bytes[FLASH_RECORD_VALUE_AT + place] = 1;
    lend_part(1);
    changing_job();
    record(bytes);
    run(5, "write of %u bytes with a bit in byte %u of the value", width,
        place);
}

static void values_too_big(void)
{
    static const uint8_t widths[3] = {1, 2, 4};
    unsigned i, place;

    for (i = 0; i < 3; i++)
        for (place = widths[i]; place < 8; place++)
            too_big(widths[i], place);
}

/* SR keeps nothing of them; main flash refuses the last one, as PG is 0. */
static void biggest_values(void)
{
    lend_part(1);
    new_job();
    reset(BOOT_FLASH);                  answer(DONE, 0);
    write_by(CPU, 1, SR, 0xFF);         answer(DONE, 0);
    write_by(CPU, 2, SR, 0xFFFF);       answer(DONE, 0);
    write_by(CPU, 4, SR, 0xFFFFFFFF);   answer(DONE, 0);
    write_by(CPU, 8, MAIN_START, 0xFFFFFFFFFFFFFFFF);
    answer(FLAG_RAISED, PGSERR);
    run(0, "the biggest value of each width");
}

/* One sound call of each kind, in the order of their numbers. */
static void sound_calls(void)
{
    unsigned kind;

    lend_part(1);
    new_job();
    for (kind = 0; kind < KINDS; kind++) {
        record(sound[kind]);
        answer(DONE, kind == FETCH ? 0x04030201 : 0);
    }
    run(0, "one sound call of each kind");
}

/* Addresses, times and boots that a call refuses do not refuse the job. */
static void refused_calls(void)
{
    lend_part(1);
    put(OPTIONS, RDP, 1, 0xCC);
    new_job();
    reset(BOOT_RAM);                   answer(LEVEL_2, 0);
    debugger_on();                     answer(NO_POWER, 0);
    wait_ms(0);                        answer(NO_POWER, 0);
    reset(BOOT_FLASH);                 answer(DONE, 0);
    read_by(CPU, 8, 0xFFFFFFFF);       answer(OUTSIDE_MAP, 0);
    write_by(DEBUGGER, 1, 0, 0);       answer(NOT_CONNECTED, 0);
    pass_us(120000001);                answer(TIME_ABOVE_LIMIT, 0);
    wait_ms(0xFFFFFFFF);               answer(TIME_ABOVE_LIMIT, 0);
    run(0, "calls that are refused one by one");
}

static void malformed_among(unsigned count, unsigned place)
{
    static const uint8_t kind_8[16] = {8};
    unsigned i;

    lend_part(1);
    changing_job();
    if (place < calls())
        put(JOB, FLASH_JOB_LENGTH((size_t)place), 1, 8);
    for (i = calls(); i < count; i++)
        record(i == place ? kind_8 : sound[0]);
    run(5, "call %u of %u malformed", place, count);
}

void record_cases(void)
{
    unsigned place;

    sound_calls();
    biggest_values();
    refused_calls();
    unused_fields();
    unknown_fields();
    unknown_boots();
    values_too_big();
    for (place = 0; place < 6; place++)
        malformed_among(6, place);
    malformed_among(2000, 0);
    malformed_among(2000, 6);
    malformed_among(2000, 1998);
    malformed_among(2000, 1999);
}

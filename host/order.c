/* Several faults at once: the first in the order 1, 2, 3, 4, 6, 5 is named. */
#include <stdio.h>

#include "bench.h"
#include "calls.h"
#include "cases.h"

enum { FAULTS = 6 };

static const uint32_t in_order[FAULTS] = {1, 2, 3, 4, 6, 5};

static void plant(uint32_t fault)
{
    switch (fault) {
    case 1:
        lend(OPTIONS, 15);
        break;
    case 2:
        put_timing(FLASH_TIMING_X64, FLASH_TIMING_OPTION, 60000001);
        break;
    case 3:
        put(JOB, FLASH_JOB_VERSION_AT, 1, 2);
        break;
    case 4:
        lend(JOB, lent[JOB].length + 1);
        break;
    case 5:
        put(JOB, FLASH_JOB_LENGTH(5), 1, 8);
        break;
    case 6:
        lend(ANSWERS, FLASH_ANSWER_LENGTH * 6 - 1);
        break;
    }
}

/* Bit i of the set stands for the fault in place i of the order. */
static void faults_at_once(unsigned set)
{
    char names[2 * FAULTS + 1] = "";
    uint32_t result = 0;
    unsigned i, length = 0;

    lend_part(4);
    changing_job();
    put(JOB, lent[JOB].length, 1, 0);
    for (i = 0; i < FAULTS; i++) {
        if (!(set >> i & 1))
            continue;
        plant(in_order[i]);
        if (result == 0)
            result = in_order[i];
        length += (unsigned)sprintf(names + length, " %u",
                                    (unsigned)in_order[i]);
    }
    if (result == 0)
        expect(MAIN_FLASH, 0x10, 1, 0x00);
    run(result, "faults at once:%s", set == 0 ? " none" : names);
}

/* Refusal 1 has six causes; each comes before a timing out of range. */
static void lengths_before_timings(void)
{
    static const enum buffer buffers[] = {MAIN_FLASH, OTP, OPTIONS, SRAM,
                                          TIMINGS};
    unsigned i;

    for (i = 0; i < sizeof buffers / sizeof buffers[0]; i++) {
        lend_part(4);
        changing_job();
        put_timing(0, 0, 0);
        lend(buffers[i], lent[buffers[i]].length - 1);
        run(1, "short %s, and a timing of 0", lent[buffers[i]].name);
    }
    lend_part(4);
    changing_job();
    put_timing(0, 0, 0);
    put(TIMINGS, FLASH_TIMINGS_LENGTH, 4, 0);
    lend(TIMINGS, FLASH_TIMINGS_LENGTH + 4);
    run(1, "25 timings, and one of them 0");
}

/* A job too short for its count shows its mark first. */
static void mark_before_length(void)
{
    size_t length;

    for (length = 5; length <= 7; length++) {
        lend_part(4);
        changing_job();
        put(JOB, 1, 1, 'I');
        lend(JOB, length);
        run(3, "wrong mark in %lu bytes", (unsigned long)length);
    }
}

/* Refusal 4 in its three forms, each with no room and a malformed call. */
static void length_before_room_and_calls(void)
{
    static const uint16_t counts[] = {0, 5, 7, 2001, 65535};
    unsigned i;

    for (i = 0; i < sizeof counts / sizeof counts[0]; i++) {
        lend_part(4);
        changing_job();
        put(JOB, FLASH_JOB_LENGTH(0), 1, 8);
        put(JOB, FLASH_JOB_COUNT_AT, 1, (uint8_t)counts[i]);
        put(JOB, FLASH_JOB_COUNT_AT + 1, 1, (uint8_t)(counts[i] >> 8));
        lend(ANSWERS, 0);
        run(4, "count %u for 6 calls, no room, a malformed call", counts[i]);
    }
}

void order_cases(void)
{
    unsigned set;

    for (set = 0; set < 1u << FAULTS; set++)
        faults_at_once(set);
    lengths_before_timings();
    mark_before_length();
    length_before_room_and_calls();
}

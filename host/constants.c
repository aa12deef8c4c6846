/*
 * The header's constants: the archive takes each length and limit and refuses
 * what lies next to it, has its areas where the header says, and answers by its
 * codes and bits, whose short names are those of calls.h. This file is C++ as
 * well, since the header has to serve there too.
 */
#include "bench.h"
#include "calls.h"
#include "cases.h"

/* Document 01's numbers, where only the preprocessor is at hand. */
#if FLASH_MAIN_LENGTH(1) != 16384 || FLASH_MAIN_LENGTH(4) != 65536 \
    || FLASH_MAIN_LENGTH(5) != 131072 || FLASH_MAIN_LENGTH(12) != 1048576
#error "the lengths of main flash"
#endif
#if FLASH_JOB_LENGTH(FLASH_JOB_MAX_CALLS) != 32007 \
    || FLASH_ANSWER_LENGTH * FLASH_JOB_MAX_CALLS != FLASH_ANSWERS_MAX
#error "the lengths of jobs and answers"
#endif
#if FLASH_TIMING_AT(FLASH_TIMING_X16, FLASH_TIMING_PROGRAM) != 24 \
    || FLASH_TIMING_AT(FLASH_TIMING_X32, FLASH_TIMING_ERASE_128K) != 60 \
    || FLASH_TIMING_AT(FLASH_TIMING_X64, FLASH_TIMING_OPTION) != 92
#error "the places of the timings"
#endif
#if FLASH_SRAM_LENGTH != 4096
#error "the length of the backup SRAM"
#endif
#if FLASH_SCRAP_LENGTH(1) != 16384 || FLASH_SCRAP_LENGTH(12) != 1048576
#error "the lengths of scrap"
#endif
#if FLASH_BOOT_SYSTEM != 1 || FLASH_BOOT_RAM != 2
#error "the boots, of which no answer tells these two apart"
#endif

/* The byte that changing_job programs stays if the job is refused. */
static void run_changing(uint32_t result, const char *what,
                         unsigned long number)
{
    if (result == FLASH_RESULT_RAN)
        expect(MAIN_FLASH, 0x10, 1, 0x00);
    run(result, "header: %s %lu", what, number);
}

static void only_length(unsigned n, enum buffer which, size_t length)
{
    size_t given;

    for (given = length - 1; given <= length + 1; given++) {
        lend_part(n);
        changing_job();
        put(which, length, 1, 0x01);
        lend(which, given);
        run_changing(given == length ? FLASH_RESULT_RAN
                                     : FLASH_RESULT_WRONG_LENGTH,
                     lent[which].name, (unsigned long)given);
    }
}

static void lengths(void)
{
    unsigned n;

    for (n = 1; n <= FLASH_MAIN_MAX_SECTORS; n++)
        only_length(n, MAIN_FLASH, FLASH_MAIN_LENGTH(n));
    only_length(1, OTP, FLASH_OTP_LENGTH);
    only_length(1, OPTIONS, FLASH_OPTIONS_LENGTH);
    only_length(1, SRAM, FLASH_SRAM_LENGTH);
    only_length(1, TIMINGS, FLASH_TIMINGS_LENGTH);
}

/* A mass erase has the longest target, for which one byte less won't do. */
static void scrap_length(unsigned n, size_t length, uint8_t code)
{
    lend_part(n);
    lend(SCRAP, length);
    new_open_job(STRT | MER);
    reset(BOOT_FLASH);  answer(code, 0);
    if (code == DONE)
        expect_bytes(MAIN_FLASH, 0, lent[SCRAP].bytes, length);
    run(FLASH_RESULT_RAN, "header: scrap %lu", (unsigned long)length);
}

static void scrap_lengths(void)
{
    unsigned n;

    for (n = 1; n <= FLASH_MAIN_MAX_SECTORS; n++) {
        scrap_length(n, FLASH_SCRAP_LENGTH(n), DONE);
        scrap_length(n, FLASH_SCRAP_LENGTH(n) - 1, SHORT_SCRAP);
    }
}

static void last_timing(uint32_t us, uint32_t result)
{
    lend_part(1);
    changing_job();
    put_timing(FLASH_TIMING_X64, FLASH_TIMING_OPTION, us);
    run_changing(result, "last timing", us);
}

static void timing_limits(void)
{
    last_timing(FLASH_TIMING_MIN_US - 1, FLASH_RESULT_WRONG_TIMING);
    last_timing(FLASH_TIMING_MIN_US, FLASH_RESULT_RAN);
    last_timing(FLASH_TIMING_MAX_US, FLASH_RESULT_RAN);
    last_timing(FLASH_TIMING_MAX_US + 1, FLASH_RESULT_WRONG_TIMING);
}

static void changed_byte(size_t offset, uint8_t byte, uint32_t result)
{
    lend_part(1);
    changing_job();
    put(JOB, offset, 1, byte);
    run_changing(result, "changed byte", (unsigned long)offset);
}

static void wrong_bytes(void)
{
    changed_byte(FLASH_JOB_VERSION_AT, FLASH_JOB_VERSION + 1,
                 FLASH_RESULT_WRONG_MARK);
    changed_byte(FLASH_JOB_COUNT_AT, 0, FLASH_RESULT_WRONG_COUNT);
    changed_byte(FLASH_JOB_LENGTH(5) + FLASH_RECORD_KIND_AT,
                 FLASH_KIND_FETCH + 1, FLASH_RESULT_MALFORMED);
    changed_byte(FLASH_JOB_LENGTH(4) + FLASH_RECORD_WHO_AT,
                 FLASH_WHO_DEBUGGER + 1, FLASH_RESULT_MALFORMED);
    changed_byte(FLASH_JOB_LENGTH(4) + FLASH_RECORD_ZERO_AT, 1,
                 FLASH_RESULT_MALFORMED);
    changed_byte(FLASH_JOB_LENGTH(0) + FLASH_RECORD_NUMBER_AT,
                 FLASH_BOOT_RAM + 1, FLASH_RESULT_MALFORMED);
}

static void resets(unsigned count, size_t room, uint32_t result)
{
    unsigned i;

    lend_part(1);
    new_job();
    for (i = 0; i < count; i++) {
        reset(BOOT_FLASH);  answer(DONE, 0);
    }
    lend(ANSWERS, room);
    run(result, "header: %u calls, %lu bytes for their answers", count,
        (unsigned long)room);
}

static void call_limits(void)
{
    resets(0, 0, FLASH_RESULT_RAN);
    resets(FLASH_JOB_MAX_CALLS, FLASH_ANSWERS_MAX, FLASH_RESULT_RAN);
    resets(FLASH_JOB_MAX_CALLS, FLASH_ANSWERS_MAX - 1, FLASH_RESULT_NO_ROOM);
    resets(FLASH_JOB_MAX_CALLS + 1, FLASH_ANSWERS_MAX + FLASH_ANSWER_LENGTH,
           FLASH_RESULT_WRONG_COUNT);
}

static void time_limits(void)
{
    lend_part(1);
    new_job();
    reset(BOOT_FLASH);               answer(DONE, 0);
    pass_us(FLASH_PASS_MAX_US);      answer(DONE, 0);
    pass_us(FLASH_PASS_MAX_US + 1);  answer(TIME_ABOVE_LIMIT, 0);
    wait_ms(FLASH_WAIT_MAX_MS);      answer(DONE, 0);
    wait_ms(FLASH_WAIT_MAX_MS + 1);  answer(TIME_ABOVE_LIMIT, 0);
    run(FLASH_RESULT_RAN, "header: the longest times");
}

/* Two bytes at each end of an area: inside it, and across its end. */
static void ends(uint32_t start, uint32_t length, uint64_t first, uint64_t last)
{
    uint32_t end = start + length;

    read_by(CPU, 2, start);    answer(DONE, first);
    read_by(CPU, 2, end - 2);  answer(DONE, last);
    read_by(CPU, 2, end - 1);  answer(OUTSIDE_MAP, 0);
}

/* OTP follows system memory without a gap, so the two are one stretch. */
static void areas(void)
{
    lend_part(4);
    put(OTP, 0, 1, 0x0F);
    put(OTP, FLASH_OTP_LENGTH - 1, 1, 0xF0);
    put(OPTIONS, 0, 1, 0x7F);
    put(OPTIONS, FLASH_OPTIONS_LENGTH - 1, 1, 0xF7);
    new_job();
    reset(BOOT_FLASH);                  answer(DONE, 0);
    ends(MAIN_START, FLASH_MAIN_LENGTH(4), 0x0100, 0x1817);
    ends(SYSTEM_START, FLASH_SYSTEM_LENGTH + FLASH_OTP_LENGTH, 0xFFFF, 0xF0FF);
    read_by(CPU, 2, OTP_START - 1);     answer(DONE, 0x0FFF);
    read_by(CPU, 2, SYSTEM_START - 1);  answer(OUTSIDE_MAP, 0);
    ends(OPTIONS_START, FLASH_OPTIONS_LENGTH, 0xAA7F, 0xF7FF);
    ends(SRAM_START, FLASH_SRAM_LENGTH, 0x0201, 0xF0EF);
    read_by(CPU, 2, SRAM_START - 1);    answer(OUTSIDE_MAP, 0);
    run(FLASH_RESULT_RAN, "header: the areas");
}

/* A blank part shows its FF to a debugger. All FF is level 1, which doesn't. */
static void blank_part(uint8_t rdp, uint8_t code, uint64_t value)
{
    lend_part(4);
    put(MAIN_FLASH, 0, FLASH_MAIN_LENGTH(4), 0xFF);
    put(OPTIONS, RDP, 1, rdp);
    new_job();
    reset(BOOT_FLASH);                    answer(DONE, 0);
    debugger_on();                        answer(DONE, 0);
    read_by(DEBUGGER, 4, MAIN_START);     answer(code, value);
    read_by(DEBUGGER, 4, OTP_START);      answer(code, value);
    read_by(DEBUGGER, 1, OPTIONS_START);  answer(DONE, 0xFF);
    run(FLASH_RESULT_RAN, "header: FF, and RDP %02X", rdp);
}

/* Every code but that of level 2, and every bit of SR. */
static void codes(void)
{
    lend_part(4);
    put(OPTIONS, RDP, 1, 0xFF);
    lend(SCRAP, 0);
    new_job();
    read_by(CPU, 4, SR);                   answer(NO_POWER, 0);
    reset(BOOT_FLASH);                     answer(DONE, 0);
    read_by(CPU, 1, 0);                    answer(OUTSIDE_MAP, 0);
    wait_ms(500000);                       answer(TIME_ABOVE_LIMIT, 0);
    read_by(CPU, 2, KEYR);                 answer(REGISTER_ACCESS, 0);
    read_by(DEBUGGER, 4, SR);              answer(NOT_CONNECTED, 0);
    write_by(CPU, 4, CR, PG);              answer(LOCKED, 0);
    write_by(CPU, 1, MAIN_START, 0);       answer(FLAG_RAISED, PGSERR);
    open_cr(CPU);
    write_by(CPU, 4, CR, PG | ERRIE);      answer(DONE, 0);
    write_by(CPU, 2, MAIN_START + 15, 0);  answer(FLAG_RAISED, PGAERR);
    write_by(CPU, 2, MAIN_START, 0);       answer(FLAG_RAISED, PGPERR);
    write_by(CPU, 1, OPTIONS_START, 0);    answer(FLAG_RAISED, WRPERR);
    read_by(CPU, 4, SR);
    answer(DONE, PGSERR | PGPERR | PGAERR | WRPERR | OPERR);
    write_by(CPU, 4, SR, 0xF2);            answer(DONE, 0);
    write_by(CPU, 4, CR, PG | EOPIE);      answer(DONE, 0);
    write_by(CPU, 1, MAIN_START, 0);       answer(DONE, 0);
    read_by(CPU, 1, MAIN_START);           answer(STALLED, 0);
    reset(BOOT_FLASH);                     answer(SHORT_SCRAP, 0);
    wait_ms(1);                            answer(WAIT_EXPIRED, 1000);
    read_by(CPU, 4, SR);                   answer(DONE, BSY);
    wait_ms(1);                            answer(DONE, 100);
    read_by(CPU, 4, SR);                   answer(DONE, EOP);
    write_by(CPU, 4, KEYR, 0);             answer(WRONG_KEY, 0);
    debugger_on();                         answer(DONE, 0);
    read_by(CPU, 1, MAIN_START);           answer(CLOSED, 0);
    expect(MAIN_FLASH, 0, 1, 0x00);
    run(FLASH_RESULT_RAN, "header: the codes and the bits of SR");
}

static void level_2_code(void)
{
    lend_part(4);
    put(OPTIONS, RDP, 1, FLASH_RDP_LEVEL_2);
    new_job();
    reset(BOOT_SYSTEM);  answer(LEVEL_2, 0);
    reset(BOOT_RAM);     answer(LEVEL_2, 0);
    reset(BOOT_FLASH);   answer(DONE, 0);
    debugger_on();       answer(LEVEL_2, 0);
    run(FLASH_RESULT_RAN, "header: level 2");
}

/* docs/HOSTS.md: a read of SR behind a job shows whether it ended busy. */
static void ended_busy(uint32_t us, uint64_t sr)
{
    lend_part(4);
    new_open_job(PG);
    write_by(CPU, 1, MAIN_START + 0x10, 0);  answer(DONE, 0);
    pass_us(us);                             answer(DONE, 0);
    read_by(CPU, 4, SR);                     answer(DONE, sr);
    if (sr == 0)
        expect(MAIN_FLASH, 0x10, 1, 0x00);
    run(FLASH_RESULT_RAN, "header: SR %lu microseconds after a write",
        (unsigned long)us);
}

void constant_cases(void)
{
    lengths();
    scrap_lengths();
    timing_limits();
    wrong_bytes();
    call_limits();
    time_limits();
    areas();
    blank_part(FLASH_RDP_LEVEL_0, DONE, 0xFFFFFFFF);
    blank_part(0xFF, CLOSED, 0);
    codes();
    level_2_code();
    ended_busy(1099, BSY);
    ended_busy(1100, 0);
}

#include "calls.h"

#include <stdio.h>
#include <stdlib.h>
#include <string.h>

#include "bench.h"

static unsigned call_count, answer_count;

static void put_head(void)
{
    uint8_t head[FLASH_JOB_HEAD_LENGTH] = {0};

    memcpy(head, FLASH_JOB_MARK, strlen(FLASH_JOB_MARK));
    head[FLASH_JOB_VERSION_AT] = FLASH_JOB_VERSION;
    head[FLASH_JOB_COUNT_AT] = (uint8_t)call_count;
    head[FLASH_JOB_COUNT_AT + 1] = (uint8_t)(call_count >> 8);
    put_bytes(JOB, 0, head, FLASH_JOB_HEAD_LENGTH);
    lend(JOB, FLASH_JOB_LENGTH((size_t)call_count));
    lend(ANSWERS, FLASH_ANSWER_LENGTH * (size_t)call_count);
}

void new_job(void)
{
    call_count = 0;
    answer_count = 0;
    expect_no_answers();
    put_head();
}

unsigned calls(void)
{
    return call_count;
}

void record(const uint8_t bytes[FLASH_RECORD_LENGTH])
{
    put_bytes(JOB, FLASH_JOB_LENGTH((size_t)call_count), bytes,
              FLASH_RECORD_LENGTH);
    call_count++;
    put_head();
}

static void call(uint8_t kind, uint8_t who, uint8_t width, uint32_t number,
                 uint64_t value)
{
    uint8_t bytes[FLASH_RECORD_LENGTH] = {0};
    unsigned i;

    bytes[FLASH_RECORD_KIND_AT] = kind;
    bytes[FLASH_RECORD_WHO_AT] = who;
    bytes[FLASH_RECORD_WIDTH_AT] = width;
    for (i = 0; i < 4; i++)
        bytes[FLASH_RECORD_NUMBER_AT + i] = (uint8_t)(number >> (8 * i));
    for (i = 0; i < 8; i++)
        bytes[FLASH_RECORD_VALUE_AT + i] = (uint8_t)(value >> (8 * i));
    record(bytes);
}

void reset(enum boot boot)
{
    call(FLASH_KIND_RESET, 0, 0, (uint32_t)boot, 0);
}

void debugger_on(void)
{
    call(FLASH_KIND_DEBUGGER_ON, 0, 0, 0, 0);
}

void debugger_off(void)
{
    call(FLASH_KIND_DEBUGGER_OFF, 0, 0, 0, 0);
}

void read_by(enum who who, uint8_t width, uint32_t address)
{
    call(FLASH_KIND_READ, (uint8_t)who, width, address, 0);
}

void write_by(enum who who, uint8_t width, uint32_t address, uint64_t value)
{
    call(FLASH_KIND_WRITE, (uint8_t)who, width, address, value);
}

void pass_us(uint32_t microseconds)
{
    call(FLASH_KIND_PASS_US, 0, 0, microseconds, 0);
}

void wait_ms(uint32_t milliseconds)
{
    call(FLASH_KIND_WAIT_MS, 0, 0, milliseconds, 0);
}

void fetch(uint32_t address)
{
    call(FLASH_KIND_FETCH, 0, 4, address, 0);
}

void answer(uint8_t code, uint64_t value)
{
    expect_answer(answer_count, code, value);
    answer_count++;
    if (answer_count != call_count) {
        fprintf(stderr, "host: a call of a case has no answer\n");
        abort();
    }
}

void answer_old(uint64_t value, uint64_t uncached)
{
    answer(DONE, value);
    expect_uncached(answer_count - 1, uncached);
}

void open_cr(enum who who)
{
    write_by(who, 4, KEYR, 0x45670123); answer(DONE, 0);
    write_by(who, 4, KEYR, 0xCDEF89AB); answer(DONE, 0);
}

void open_optcr(enum who who)
{
    write_by(who, 4, OPTKEYR, 0x08192A3B); answer(DONE, 0);
    write_by(who, 4, OPTKEYR, 0x4C5D6E7F); answer(DONE, 0);
}

void closed_sram(enum who who)
{
    uint32_t end = SRAM_START + FLASH_SRAM_LENGTH;

    read_by(who, 1, SRAM_START);                  answer(CLOSED, 0);
    read_by(who, 2, SRAM_START + 0x801);          answer(CLOSED, 0);
    read_by(who, 4, SRAM_START + 0x7FE);          answer(CLOSED, 0);
    read_by(who, 8, end - 8);                     answer(CLOSED, 0);
    read_by(who, 2, end - 1);                     answer(OUTSIDE_MAP, 0);
    write_by(who, 1, SRAM_START, 0);              answer(CLOSED, 0);
    write_by(who, 2, SRAM_START + 0x801, 0xFFFF); answer(CLOSED, 0);
    write_by(who, 4, SRAM_START + 0x7FE, 0);      answer(CLOSED, 0);
    write_by(who, 8, end - 8, 0);                 answer(CLOSED, 0);
    write_by(who, 2, SRAM_START - 1, 0);          answer(OUTSIDE_MAP, 0);
}

void new_open_job(uint32_t fields)
{
    new_job();
    reset(BOOT_FLASH);             answer(DONE, 0);
    open_cr(CPU);
    write_by(CPU, 4, CR, fields);  answer(DONE, 0);
}

void new_debugger_job(uint32_t optcr)
{
    new_job();
    reset(BOOT_FLASH);                    answer(DONE, 0);
    debugger_on();                        answer(DONE, 0);
    open_optcr(DEBUGGER);
    write_by(DEBUGGER, 4, OPTCR, optcr);  answer(DONE, 0);
}

void changing_job(void)
{
    new_open_job(PG);
    write_by(CPU, 1, MAIN_START + 0x10, 0);  answer(DONE, 0);
    wait_ms(2);                              answer(DONE, 1100);
}

void start_operation(unsigned row, unsigned column)
{
    uint32_t psize = PSIZE(row);

    switch (column) {
    case FLASH_TIMING_PROGRAM:
        write_by(CPU, 4, CR, psize | PG);  answer(DONE, 0);
        write_by(CPU, (uint8_t)(1u << row), MAIN_START + 0x10, 0);
        expect(MAIN_FLASH, 0x10, 1u << row, 0x00);
        break;
    case FLASH_TIMING_ERASE_16K:
        write_by(CPU, 4, CR, psize | STRT | SER | SNB(3));
        expect(MAIN_FLASH, 0xC000, 0x4000, 0xFF);
        break;
    case FLASH_TIMING_ERASE_64K:
        write_by(CPU, 4, CR, psize | STRT | SER | SNB(4));
        expect(MAIN_FLASH, 0x10000, 0x10000, 0xFF);
        break;
    case FLASH_TIMING_ERASE_128K:
        write_by(CPU, 4, CR, psize | STRT | SER | SNB(5));
        expect(MAIN_FLASH, 0x20000, 0x20000, 0xFF);
        break;
    case FLASH_TIMING_MASS_ERASE:
        write_by(CPU, 4, CR, psize | STRT | MER);
        expect(MAIN_FLASH, 0, 0x40000, 0xFF);
        break;
    case FLASH_TIMING_OPTION:
        write_by(CPU, 4, CR, psize);  answer(DONE, 0);
        open_optcr(CPU);
        write_by(CPU, 4, OPTCR, 0x0FFF55EE);
        expect(OPTIONS, RDP, 1, 0x55);
        break;
    }
    answer(DONE, 0);
}

void cut(enum boot boot)
{
    reset(boot);          answer(DONE, 0);
    read_by(CPU, 4, SR);  answer(DONE, 0);
    read_by(CPU, 4, CR);  answer(DONE, LOCK);
    pass_us(120000000);   answer(DONE, 0);
    read_by(CPU, 4, SR);  answer(DONE, 0);
}

/*
 * Two jobs one after the other on the same buffers: what the first leaves in
 * the part's record (power, locks, a debugger, a running operation) is gone.
 */
#include "bench.h"
#include "calls.h"
#include "cases.h"

/* The second job: no power at first, then a part at rest. */
static void second_job(const char *after)
{
    new_job();
    read_by(CPU, 4, SR);                answer(NO_POWER, 0);
    write_by(CPU, 4, KEYR, 0x45670123); answer(NO_POWER, 0);
    debugger_on();                      answer(NO_POWER, 0);
    debugger_off();                     answer(NO_POWER, 0);
    pass_us(120000000);                 answer(NO_POWER, 0);
    wait_ms(120000);                    answer(NO_POWER, 0);
    reset(BOOT_FLASH);                  answer(DONE, 0);
    read_by(CPU, 4, SR);                answer(DONE, 0);
    read_by(CPU, 4, CR);                answer(DONE, LOCK);
    wait_ms(120000);                    answer(DONE, 0);
    run(0, "second job, after %s", after);
}

static void program_unfinished(void)
{
    lend_part(4);
    new_job();
    reset(BOOT_FLASH);                       answer(DONE, 0);
    open_cr(CPU);
    write_by(CPU, 4, CR, PG | EOPIE);        answer(DONE, 0);
    write_by(CPU, 1, MAIN_START + 0x10, 0);  answer(DONE, 0);
    pass_us(1099);                           answer(DONE, 0);
    read_by(CPU, 4, SR);                     answer(DONE, BSY);
    run(0, "first job ends in a program operation");
    second_job("an unfinished program operation");
}

static void erase_unfinished(uint32_t fields, const char *title)
{
    lend_part(4);
    new_job();
    reset(BOOT_FLASH);                   answer(DONE, 0);
    open_cr(CPU);
    write_by(CPU, 4, CR, fields | STRT); answer(DONE, 0);
    wait_ms(1);                          answer(WAIT_EXPIRED, 1000);
    run(0, "first job ends in %s", title);
    second_job(title);
}

static void option_change_unfinished(uint8_t rdp, uint32_t optcr,
                                     const char *title)
{
    lend_part(4);
    put(OPTIONS, RDP, 1, rdp);
    new_job();
    reset(BOOT_FLASH);                answer(DONE, 0);
    open_optcr(CPU);
    write_by(CPU, 4, OPTCR, optcr);   answer(DONE, 0);
    pass_us(1599);                    answer(DONE, 0);
    read_by(CPU, 4, OPTCR);           answer(DONE, optcr);
    run(0, "first job ends in %s", title);
    second_job(title);
}

/* At level 1 the second job reads main flash as clean code does. */
static void debugger_forgotten(void)
{
    lend_part(4);
    put(OPTIONS, RDP, 1, 0x00);
    new_job();
    reset(BOOT_RAM);                       answer(DONE, 0);
    debugger_on();                         answer(DONE, 0);
    read_by(DEBUGGER, 4, MAIN_START);      answer(CLOSED, 0);
    run(0, "first job ends with a debugger connected");

    new_job();
    read_by(DEBUGGER, 4, MAIN_START);      answer(NO_POWER, 0);
    reset(BOOT_FLASH);                     answer(DONE, 0);
    read_by(CPU, 4, MAIN_START + 4);       answer(DONE, 0x07060504);
    read_by(DEBUGGER, 4, MAIN_START + 4);  answer(NOT_CONNECTED, 0);
    run(0, "second job, after a connected debugger");
}

static void first_call(const char *title)
{
    answer(NO_POWER, 0);
    run(0, "first call: %s", title);
    new_job();
}

/* Each kind of call but reset as the only call, after a job that had power. */
static void first_calls(void)
{
    lend_part(4);
    changing_job();
    expect(MAIN_FLASH, 0x10, 1, 0x00);
    run(0, "a job that leaves the part with power");

    new_job();
    debugger_on();                       first_call("on");
    debugger_off();                      first_call("off");
    read_by(CPU, 1, MAIN_START);         first_call("read of main flash");
    read_by(CPU, 4, OPTCR);              first_call("read of a register");
    read_by(CPU, 8, SRAM_START);         first_call("read of the SRAM");
    read_by(DEBUGGER, 1, 0);             first_call("debugger's read");
    write_by(CPU, 1, MAIN_START, 0);     first_call("write to main flash");
    write_by(CPU, 4, CR, PG);            first_call("write to a register");
    write_by(CPU, 8, SRAM_START, 0);     first_call("write to the SRAM");
    write_by(DEBUGGER, 8, SR, 0);        first_call("debugger's write");
    pass_us(0);                          first_call("pass");
    wait_ms(0);                          first_call("wait");
    fetch(MAIN_START);                   first_call("fetch");
}

void fresh_cases(void)
{
    first_calls();
    program_unfinished();
    erase_unfinished(SER | SNB(2), "a sector erase");
    erase_unfinished(MER, "a mass erase");
    option_change_unfinished(0xAA, 0x0FFE556E, "an option change");
    option_change_unfinished(0x55, 0x0FFFAAEE, "a regression");
    debugger_forgotten();
}

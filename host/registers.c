/* Locks, lanes and flags: the registers as the job's own calls see them. */
#include "bench.h"
#include "calls.h"
#include "cases.h"

static void powered_job(void)
{
    lend_part(4);
    new_job();
    reset(BOOT_FLASH);  answer(DONE, 0);
}

/* Once a wrong word came, no word opens the lock before the next reset. */
static void wrong_key(uint32_t first, uint8_t first_code, uint32_t second,
                      const char *title)
{
    powered_job();
    write_by(CPU, 4, KEYR, first);        answer(first_code, 0);
    write_by(CPU, 4, KEYR, second);       answer(WRONG_KEY, 0);
    write_by(CPU, 4, KEYR, 0x45670123);   answer(WRONG_KEY, 0);
    write_by(CPU, 4, KEYR, 0xCDEF89AB);   answer(WRONG_KEY, 0);
    write_by(CPU, 4, CR, PG);             answer(LOCKED, 0);
    read_by(CPU, 4, CR);                  answer(DONE, LOCK);
    reset(BOOT_FLASH);                    answer(DONE, 0);
    open_cr(CPU);
    write_by(CPU, 4, CR, PG);             answer(DONE, 0);
    read_by(CPU, 4, CR);                  answer(DONE, PG);
    run(0, "KEYR: %s", title);
}

static void word_once_open(void)
{
    powered_job();
    open_optcr(CPU);
    write_by(CPU, 4, OPTCR, 0x0FFF00EC);    answer(DONE, 0);
    write_by(CPU, 4, OPTKEYR, 0x08192A3B);  answer(WRONG_KEY, 0);
    read_by(CPU, 4, OPTCR);                 answer(DONE, 0x0FFF00ED);
    write_by(CPU, 4, OPTCR, 0x0FFFAAEC);    answer(LOCKED, 0);
    write_by(CPU, 4, OPTKEYR, 0x08192A3B);  answer(WRONG_KEY, 0);
    write_by(CPU, 4, OPTKEYR, 0x4C5D6E7F);  answer(WRONG_KEY, 0);
    reset(BOOT_FLASH);                      answer(DONE, 0);
    open_optcr(CPU);
    read_by(CPU, 4, OPTCR);                 answer(DONE, 0x0FFFAAEC);
    run(0, "OPTKEYR: a word once open");
}

/* The erase runs although the same write closes the lock behind it. */
static void lock_with_start(void)
{
    powered_job();
    open_cr(CPU);
    write_by(CPU, 4, CR, LOCK | STRT | SER | SNB(1));  answer(DONE, 0);
    read_by(CPU, 4, CR);   answer(DONE, LOCK | STRT | SER | SNB(1));
    wait_ms(2);            answer(DONE, 1200);
    read_by(CPU, 4, CR);   answer(DONE, LOCK | SER | SNB(1));
    write_by(CPU, 4, CR, 0);  answer(LOCKED, 0);
    open_cr(CPU);
    write_by(CPU, 4, CR, 0);  answer(DONE, 0);
    expect(MAIN_FLASH, 0x4000, 0x4000, 0xFF);
    run(0, "LOCK and STRT in one write");
}

static void lanes_of_cr(void)
{
    powered_job();
    open_cr(CPU);
    write_by(CPU, 4, CR, 0x03000249);   answer(DONE, 0);
    write_by(CPU, 1, CR + 1, 0x01);     answer(DONE, 0);
    read_by(CPU, 4, CR);                answer(DONE, 0x03000149);
    write_by(CPU, 2, CR + 2, 0x0200);   answer(DONE, 0);
    read_by(CPU, 4, CR);                answer(DONE, 0x02000149);
    write_by(CPU, 1, CR, 0x04);         answer(DONE, 0);
    read_by(CPU, 1, CR + 3);            answer(DONE, 0x02);
    read_by(CPU, 2, CR);                answer(DONE, 0x0104);
    write_by(CPU, 4, CR, 0x7CFEFC80);   answer(DONE, 0);
    read_by(CPU, 4, CR);                answer(DONE, 0);
    read_by(CPU, 2, CR + 1);            answer(REGISTER_ACCESS, 0);
    run(0, "lanes and reserved bits of CR");
}

static void lanes_of_optcr(void)
{
    powered_job();
    open_optcr(CPU);
    write_by(CPU, 1, OPTCR + 1, 0x55);    answer(DONE, 0);
    read_by(CPU, 4, OPTCR);               answer(DONE, 0x0FFF55EC);
    write_by(CPU, 2, OPTCR + 2, 0xF123);  answer(DONE, 0);
    read_by(CPU, 4, OPTCR);               answer(DONE, 0x012355EC);
    write_by(CPU, 1, OPTCR, 0x10);        answer(DONE, 0);
    read_by(CPU, 4, OPTCR);               answer(DONE, 0x01235500);
    read_by(CPU, 1, OPTCR + 2);           answer(DONE, 0x23);
    run(0, "lanes and reserved bits of OPTCR");
}

static void lanes_of_sr(void)
{
    powered_job();
    write_by(CPU, 1, MAIN_START, 0);     answer(FLAG_RAISED, PGSERR);
    write_by(CPU, 1, SR + 1, 0xFF);      answer(DONE, 0);
    write_by(CPU, 2, SR + 2, 0xFFFF);    answer(DONE, 0);
    write_by(CPU, 1, SR, 0x7F);          answer(DONE, 0);
    read_by(CPU, 4, SR);                 answer(DONE, PGSERR);
    write_by(CPU, 1, SR, 0x80);          answer(DONE, 0);
    read_by(CPU, 4, SR);                 answer(DONE, 0);
    run(0, "lanes of SR");
}

/* DCRST and ICRST keep their value while their cache is on. */
static void cache_resets(void)
{
    powered_job();
    write_by(CPU, 4, ACR, 0xFFFFFFFF);  answer(DONE, 0);
    read_by(CPU, 4, ACR);               answer(DONE, 0x1F07);
    write_by(CPU, 4, ACR, 0);           answer(DONE, 0);
    read_by(CPU, 4, ACR);               answer(DONE, 0x1800);
    write_by(CPU, 1, ACR + 1, 0x06);    answer(DONE, 0);
    read_by(CPU, 4, ACR);               answer(DONE, 0x0600);
    write_by(CPU, 2, ACR, 0x1C03);      answer(DONE, 0);
    read_by(CPU, 4, ACR);               answer(DONE, 0x0403);
    run(0, "ACR and its bits 12 and 11");
}

static void end_of_operation(void)
{
    powered_job();
    open_cr(CPU);
    write_by(CPU, 4, CR, EOPIE | PG);        answer(DONE, 0);
    write_by(CPU, 1, MAIN_START + 0x10, 0);  answer(DONE, 0);
    read_by(CPU, 4, SR);                     answer(DONE, BSY);
    read_by(CPU, 1, MAIN_START);             answer(STALLED, 0);
    write_by(CPU, 4, CR, 0);                 answer(STALLED, 0);
    write_by(CPU, 4, ACR, 5);                answer(DONE, 0);
    wait_ms(0);                              answer(WAIT_EXPIRED, 0);
    wait_ms(1);                              answer(WAIT_EXPIRED, 1000);
    wait_ms(1);                              answer(DONE, 100);
    read_by(CPU, 4, SR);                     answer(DONE, EOP);
    write_by(CPU, 4, SR, 0xF2);              answer(DONE, 0);
    read_by(CPU, 4, SR);                     answer(DONE, EOP);
    write_by(CPU, 4, SR, EOP);               answer(DONE, 0);
    read_by(CPU, 4, SR);                     answer(DONE, 0);
    expect(MAIN_FLASH, 0x10, 1, 0x00);
    run(0, "EOP and what stalls");
}

void register_cases(void)
{
    wrong_key(0xCDEF89AB, WRONG_KEY, 0x45670123, "the second key first");
    wrong_key(0x45670123, DONE, 0x45670123, "the first key twice");
    wrong_key(0x45670123, DONE, 0x00000000, "a wrong second key");
    word_once_open();
    lock_with_start();
    lanes_of_cr();
    lanes_of_optcr();
    lanes_of_sr();
    cache_resets();
    end_of_operation();
}

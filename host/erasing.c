/* Sector erase and mass erase: every cell when the job is over. */
#include "bench.h"
#include "calls.h"
#include "cases.h"

static void erase_sector(unsigned sector)
{
    static const uint32_t us[12] = {1200, 1200, 1200, 1200, 1300, 1400,
                                    1400, 1400, 1400, 1400, 1400, 1400};
    size_t start = main_length(sector);

    lend_part(12);
    new_open_job(0);
    write_by(CPU, 4, CR, STRT | SER | SNB(sector));  answer(DONE, 0);
    wait_ms(2);                                      answer(DONE, us[sector]);
    expect(MAIN_FLASH, start, main_length(sector + 1) - start, 0xFF);
    run(0, "erase of sector %u", sector);
}

static void mass_erase(unsigned n)
{
    lend_part(n);
    put(OTP, 0, FLASH_OTP_LENGTH, 0x5A);
    put(OPTIONS, 2, 6, 0x11);
    new_open_job(0);
    write_by(CPU, 4, CR, STRT | MER);  answer(DONE, 0);
    wait_ms(2);                        answer(DONE, 1500);
    expect(MAIN_FLASH, 0, main_length(n), 0xFF);
    run(0, "mass erase with n = %u", n);
}

/* nWRP bits of sectors that the part does not have protect nothing. */
static void mass_erase_without_sector_4(void)
{
    lend_part(4);
    put(OPTIONS, NWRP, 1, 0x0F);
    put(OPTIONS, NWRP + 1, 1, 0x00);
    new_open_job(0);
    write_by(CPU, 4, CR, STRT | MER);  answer(DONE, 0);
    wait_ms(2);                        answer(DONE, 1500);
    expect(MAIN_FLASH, 0, 65536, 0xFF);
    run(0, "mass erase, only absent sectors protected");
}

static void erase_refused(void)
{
    lend_part(4);
    new_open_job(0);
    write_by(CPU, 4, CR, STRT);                  answer(FLAG_RAISED, PGSERR);
    write_by(CPU, 4, CR, STRT | MER | SER);      answer(FLAG_RAISED, WRPERR);
    write_by(CPU, 4, CR, STRT | SER | SNB(4));   answer(FLAG_RAISED, WRPERR);
    write_by(CPU, 4, CR, STRT | SER | SNB(15));  answer(FLAG_RAISED, WRPERR);
    wait_ms(120000);                             answer(DONE, 0);
    run(0, "erases that do not start");
}

/* One protected sector of twelve: the first and the last byte, and erases. */
static void protected_sector(unsigned sector)
{
    uint32_t start = MAIN_START + (uint32_t)main_length(sector);
    uint32_t end = MAIN_START + (uint32_t)main_length(sector + 1);

    lend_part(12);
    put(OPTIONS, NWRP + sector / 8, 1, (uint8_t)(0xFF ^ 1u << sector % 8));
    new_open_job(PG);
    write_by(CPU, 1, start, 0);    answer(FLAG_RAISED, WRPERR);
    write_by(CPU, 1, end - 1, 0);  answer(FLAG_RAISED, WRPERR);
    write_by(CPU, 4, CR, STRT | SER | SNB(sector));
    answer(FLAG_RAISED, WRPERR);
    write_by(CPU, 4, CR, STRT | MER);
    answer(FLAG_RAISED, WRPERR);
    wait_ms(120000);               answer(DONE, 0);
    run(0, "sector %u protected", sector);
}

void erasing_cases(void)
{
    unsigned sector;

    for (sector = 0; sector < 12; sector++)
        erase_sector(sector);
    mass_erase(1);
    mass_erase(4);
    mass_erase(12);
    mass_erase_without_sector_4();
    erase_refused();
    for (sector = 0; sector < 12; sector++)
        protected_sector(sector);
}

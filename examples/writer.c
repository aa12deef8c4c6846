/* Writes a job, runs it on a blank part of four sectors, compares the answers. */
#include <stdio.h>
#include <string.h>

#include "flash_job.h"
#include "job_writer.h"

enum { CALLS = 7 };

static uint8_t main_flash[FLASH_MAIN_LENGTH(4)], otp[FLASH_OTP_LENGTH];
static uint8_t options[FLASH_OPTIONS_LENGTH], sram[FLASH_SRAM_LENGTH];
static uint8_t timings_us[FLASH_TIMINGS_LENGTH];
static uint8_t job[FLASH_JOB_LENGTH(CALLS)];
static uint8_t answers[FLASH_ANSWER_LENGTH * CALLS];

/* The calls, all by the CPU, and the value that each must give when done. */
static const struct call {
    uint32_t kind, width, number;
    uint64_t value, answer;
} calls[CALLS] = {
    {FLASH_KIND_RESET, 0, FLASH_BOOT_FLASH, 0, 0},
    {FLASH_KIND_WRITE, 4, FLASH_KEYR, 0x45670123, 0},
    {FLASH_KIND_WRITE, 4, FLASH_KEYR, 0xCDEF89AB, 0},
    {FLASH_KIND_WRITE, 4, FLASH_CR, 0x00000201, 0},     /* PSIZE 2, PG */
    {FLASH_KIND_WRITE, 4, FLASH_MAIN_START + 0x100, 0x12345678, 0},
    {FLASH_KIND_WAIT_MS, 0, 1, 0, 1000},                /* microseconds */
    {FLASH_KIND_READ, 4, FLASH_MAIN_START + 0x100, 0, 0x12345678},
};

/* The caller counts: one more with each call that was appended. */
static uint32_t write_job(void)
{
    uint32_t count, result = flash_job_begin(job, sizeof job);

    for (count = 0; result == FLASH_WRITER_DONE && count < CALLS; count++)
        result = flash_job_append(job, sizeof job, count, calls[count].kind,
                                  FLASH_WHO_CPU, calls[count].width,
                                  calls[count].number, calls[count].value);
    if (result == FLASH_WRITER_DONE)
        result = flash_job_close(job, sizeof job, count);
    return result;
}

/* 1,000 microseconds for every operation. */
static void make_blank_part(void)
{
    size_t i;

    memset(main_flash, 0xFF, sizeof main_flash);
    memset(otp, 0xFF, sizeof otp);
    memset(options, 0xFF, sizeof options);
    options[FLASH_OPTIONS_RDP_AT] = FLASH_RDP_LEVEL_0;
    memset(sram, 0x00, sizeof sram);
    for (i = 0; i < sizeof timings_us; i += 4) {
        timings_us[i] = 1000 % 256;
        timings_us[i + 1] = 1000 / 256;
    }
}

/* An answer is its code, seven zeros and the value, lowest byte first. */
static int is_done_with(const uint8_t *answer, uint64_t value)
{
    uint8_t expected[FLASH_ANSWER_LENGTH] = {FLASH_CODE_DONE};
    unsigned i;

    for (i = 0; i < 8; i++)
        expected[FLASH_ANSWER_VALUE_AT + i] = (uint8_t)(value >> (8 * i));
    return memcmp(answer, expected, sizeof expected) == 0;
}

int main(void)
{
    unsigned i, right = 0;

    make_blank_part();
    /* No scrap: at the job's only reset nothing is running. */
    if (write_job() != FLASH_WRITER_DONE
        || flash_job_run(main_flash, sizeof main_flash, otp, sizeof otp,
                         options, sizeof options, sram, sizeof sram,
                         timings_us, sizeof timings_us, NULL, 0,
                         job, sizeof job,
                         answers, sizeof answers) != FLASH_RESULT_RAN) {
        printf("The job was refused.\n");
        return 1;
    }
    for (i = 0; i < CALLS; i++)
        if (is_done_with(answers + FLASH_ANSWER_LENGTH * i, calls[i].answer))
            right++;
    printf("%u calls written and run, %u answers right.\n", CALLS, right);
    return right == CALLS ? 0 : 1;
}

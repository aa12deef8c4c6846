/* Runs a job file on a blank part of four sectors and prints the answers. */
#include <stdio.h>
#include <string.h>

#include "flash_job.h"

static uint8_t main_flash[FLASH_MAIN_LENGTH(4)], otp[FLASH_OTP_LENGTH];
static uint8_t options[FLASH_OPTIONS_LENGTH], sram[FLASH_SRAM_LENGTH];
static uint8_t timings_us[FLASH_TIMINGS_LENGTH], scrap[FLASH_SCRAP_LENGTH(4)];
/* One byte more than the longest job, so that a longer file is refused. */
static uint8_t job[FLASH_JOB_LENGTH(FLASH_JOB_MAX_CALLS) + 1];
static uint8_t answers[FLASH_ANSWERS_MAX];

/* Run behind the job's last call, to see whether an operation is running. */
static const uint8_t read_sr[FLASH_RECORD_LENGTH] = {
    FLASH_KIND_READ, FLASH_WHO_CPU, 4, 0, FLASH_SR & 0xFF,
    FLASH_SR >> 8 & 0xFF, FLASH_SR >> 16 & 0xFF, FLASH_SR >> 24,
};

static unsigned long long value_of(const uint8_t *answer)
{
    unsigned long long value = 0;
    int i;

    for (i = 7; i >= 0; i--)
        value = value << 8 | answer[FLASH_ANSWER_VALUE_AT + i];
    return value;
}

int main(int argc, char **argv)
{
    FILE *file = argc == 2 ? fopen(argv[1], "rb") : NULL;
    const uint8_t *answer = answers;
    size_t length, count, i;
    uint32_t result;

    if (file == NULL) {
        fprintf(stderr, "usage: host JOB\n");
        return 2;
    }
    length = fread(job, 1, sizeof job, file);
    fclose(file);

    memset(main_flash, 0xFF, sizeof main_flash);
    memset(otp, 0xFF, sizeof otp);
    memset(options, 0xFF, sizeof options);
    options[FLASH_OPTIONS_RDP_AT] = FLASH_RDP_LEVEL_0;
    memset(sram, 0x00, sizeof sram);
    for (i = 0; i < sizeof timings_us; i += 4) {    /* 1,000 microseconds */
        timings_us[i] = 1000 % 256;
        timings_us[i + 1] = 1000 / 256;
    }
    /* As `rehearse` has it: a cut erase is complete, all else not begun. */
    memset(scrap, 0xFF, sizeof scrap);

    /* A job that its head or its length refuses stays as it is. */
    count = job[FLASH_JOB_COUNT_AT] + 256 * job[FLASH_JOB_COUNT_AT + 1];
    if (length == FLASH_JOB_LENGTH(count) && count < FLASH_JOB_MAX_CALLS) {
        memcpy(job + length, read_sr, sizeof read_sr);
        length += sizeof read_sr;
        job[FLASH_JOB_COUNT_AT] = (count + 1) % 256;
        job[FLASH_JOB_COUNT_AT + 1] = (count + 1) / 256;
    }
    result = flash_job_run(main_flash, sizeof main_flash, otp, sizeof otp,
                           options, sizeof options, sram, sizeof sram,
                           timings_us, sizeof timings_us, scrap, sizeof scrap,
                           job, length, answers, sizeof answers);
    if (result != FLASH_RESULT_RAN) {
        printf("refused %lu\n", (unsigned long)result);
        return 1;
    }
    for (i = 0; i < count; i++, answer += FLASH_ANSWER_LENGTH)
        printf("%02X %016llX\n", answer[FLASH_ANSWER_CODE_AT],
               value_of(answer));
    if (count == FLASH_JOB_MAX_CALLS)
        fprintf(stderr, "No room to see whether an operation is running.\n");
    else if (value_of(answer) & FLASH_BSY)
        fprintf(stderr, "The job ended while an operation was running.\n");
    return 0;
}

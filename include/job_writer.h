/*
 * The job writer for programs in C and C++ that make jobs: three functions that
 * write a job into a buffer of the caller's own, one call at a time. What they
 * write is what flash_job_run takes; flash_job.h has the layout of a job, the
 * kinds and the limits by name, and this header needs no more of it than that.
 *
 *   count = 0;
 *   flash_job_begin(job, sizeof job);
 *   if (flash_job_append(job, sizeof job, count, FLASH_KIND_RESET, 0, 0,
 *                        FLASH_BOOT_FLASH, 0) == FLASH_WRITER_DONE)
 *       count++;
 *   flash_job_close(job, sizeof job, count);
 *   the job is the first FLASH_JOB_LENGTH(count) bytes
 *
 * WHO COUNTS: the caller. count is the number of appends that were done since
 * the begin, so it starts at 0, goes up by one with each append that gives
 * FLASH_WRITER_DONE, and stays with one that does not. The functions keep
 * nothing between calls: the same buffer with another count is another job.
 *
 * The pages are in the repository that the archive comes from: docs/HOSTS.md
 * says how to link this archive, also beside that of flash_job_run.
 */
#ifndef JOB_WRITER_H
#define JOB_WRITER_H

#include <stddef.h>
#include <stdint.h>

/*
 * The result -----------------------------------------------------------------
 *
 * 0, or the refusal, 5 before 20. A refusal leaves every byte of the buffer as
 * it was.
 */
#define FLASH_WRITER_DONE      0
#define FLASH_WRITER_MALFORMED 5  /* no job has such a record */
#define FLASH_WRITER_NO_ROOM   20 /* in the buffer, or in a job */

#ifdef __cplusplus
extern "C" {
#endif

/*
 * Begins a job: writes a head with a count of 0 into the first 7 bytes. No
 * other byte changes. As it stands this is a job of no calls, which
 * flash_job_run takes.
 *
 * 20: the buffer has fewer than 7 bytes.
 */
uint32_t flash_job_begin(uint8_t *buffer, size_t buffer_length);

/*
 * Appends one call: writes its record of 16 bytes behind the count records that
 * are there. No other byte changes, and so the count in the head stays as it
 * is: until the job is closed, flash_job_run refuses it with 4.
 *
 * The fields are those of a record (flash_job.h has the table): a field that
 * the kind doesn't use has to be 0, and a fetch has who 0 and width 4.
 *
 * 5: the record would be malformed: a kind that no record has, an unused field
 * that is not 0, or a who, width, boot or value that no record of its kind has.
 * 20: the buffer has fewer than 7 + 16 * (count + 1) bytes, or count is 2000 or
 * more.
 */
uint32_t flash_job_append(uint8_t *buffer, size_t buffer_length,
                          uint32_t count, uint32_t kind, uint32_t who,
                          uint32_t width, uint32_t number, uint64_t value);

/*
 * Closes a job: writes count into the two bytes of the head that hold it. No
 * other byte changes. More calls may be appended afterwards, and the job closed
 * again.
 *
 * 20: the buffer has fewer than 7 bytes, or count is above 2000.
 */
uint32_t flash_job_close(uint8_t *buffer, size_t buffer_length,
                         uint32_t count);

/*
 * All three: the caller owns the buffer, no pointer is kept, nothing is
 * allocated and there is no global state. The pointer may be null only where
 * the length is 0, and needs no alignment. The archive is for x86-64, and needs
 * nothing of the C library.
 */

#ifdef __cplusplus
}
#endif

#endif

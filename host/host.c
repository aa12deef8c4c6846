/*
 * A station's host program: it lends a part to flash_job_run and to
 * flash_job_run_uncached, runs jobs on it and compares the result, the answers
 * and every byte of every buffer with values worked out by hand from documents
 * 01 and 02. The functions of the job writer get a buffer for their jobs
 * likewise.
 *
 * Exit status 0 if no case differs, 1 otherwise. With -v the name of each case
 * is printed before it runs, so that a crash can be traced to its case.
 */
#include <stdio.h>
#include <string.h>

#include "bench.h"
#include "cases.h"

int main(int argc, char **argv)
{
    if (argc == 2 && strcmp(argv[1], "-v") == 0) {
        show_names();
    } else if (argc != 1) {
        fprintf(stderr, "usage: host [-v]\n");
        return 2;
    }
    /* What was found before a crash is shown in spite of it. */
    setvbuf(stdout, NULL, _IOLBF, BUFSIZ);
    example_cases();
    constant_cases();
    length_cases();
    timing_cases();
    head_cases();
    answer_cases();
    record_cases();
    order_cases();
    fresh_cases();
    register_cases();
    programming_cases();
    erasing_cases();
    option_cases();
    cut_cases();
    option_cut_cases();
    scrap_cases();
    sram_cases();
    fetch_cases();
    line_cases();
    secrecy_cases();
    writing_cases();
    return report();
}

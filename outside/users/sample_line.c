/*
 * The program's line by way of the library: a job on standard input, and on standard output what nessflurry_check answers for it,
 * in the words of document 01 and document 02, (c). So the samples can be tried with the library as they are with the program.
 *
 *     sample_line < JOB
 *
 * The exit status is 0 whatever the answer is, and 2 if the job cannot be read or the line cannot be written.
 */
#include "nessflurry.h"

#include <stdio.h>

/* One byte more than the longest job file has, so that too long an input is handed over, and refused by the library. */
static uint8_t file[NESSFLURRY_MAX_FILE_SIZE + 1];

/* The failing line. */
static uint8_t line[NESSFLURRY_LINE_SIZE];

static uint64_t check(size_t file_size)
{
    static uint32_t list[NESSFLURRY_LIST_SIZE];
    static uint64_t words[NESSFLURRY_WORDS_SIZE];
    return nessflurry_check(file, file_size, line, NESSFLURRY_LINE_SIZE, list, NESSFLURRY_LIST_SIZE, words,
                            NESSFLURRY_WORDS_SIZE);
}

/* Failure, start, number of lamps, the kind of each, and the end kind. */
static void print_failure(uint64_t answer)
{
    const unsigned lamps = nessflurry_lamps_of(answer);
    printf("fails %u %u %u", nessflurry_code_of(answer), nessflurry_start_of(answer), lamps);
    for (unsigned lamp = 0; lamp < lamps; lamp++)
        printf(" %u", line[lamp]);
    printf(" %u\n", nessflurry_end_of(answer));
}

static void print_answer(uint64_t answer)
{
    switch (nessflurry_code_of(answer)) {
    case NESSFLURRY_REFUSED: printf("refused %u\n", nessflurry_refusal_of(answer)); break;
    case NESSFLURRY_ACCEPTED: printf("accepted %u\n", (unsigned)nessflurry_pairs_of(answer)); break;
    default: print_failure(answer);
    }
}

int main(void)
{
    const size_t file_size = fread(file, 1, sizeof file, stdin);
    if (ferror(stdin)) {
        fprintf(stderr, "sample_line: the job cannot be read\n");
        return 2;
    }
    print_answer(check(file_size));
    if (fflush(stdout) != 0) {
        fprintf(stderr, "sample_line: the line cannot be written\n");
        return 2;
    }
    return 0;
}

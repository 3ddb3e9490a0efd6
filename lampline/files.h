/*
 * The files that are named on the command line.
 */
#ifndef LAMPLINE_FILES_H
#define LAMPLINE_FILES_H

#include <stdbool.h>
#include <stddef.h>
#include <stdint.h>

struct file {
    const char *name; /* as it was typed */
    uint8_t *bytes;
    size_t size;
};

/*
 * Reads a whole file, or standard input for '-'. If it cannot be read, or is longer than such a file can be, it says so on
 * standard error, and answers false. What is read stays until the next file of the same sort is.
 */
bool read_job_file(struct file *file, const char *name);
bool read_log_file(struct file *file, const char *name);
bool read_rules_file(struct file *file, const char *name);

#endif

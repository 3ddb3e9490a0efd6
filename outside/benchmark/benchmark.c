/*
 * The benchmark: nanoseconds a call of reader, run, report and replay on both sides; of the checks on three, since in C each is
 * made in two ways; how the check's time grows with the numbers of a job; the sum of pairs' bits alone; and cells from rules. The
 * answers of all sides are compared.
 */
#include "tables.h"

#include <stdio.h>

int main(void)
{
    printf("nanoseconds of processor time a call, the best of several batches, with the sides in turn.\n"
           "Every call but a sum and a fill reads and tests the whole job file. The buffers of a check are not cleared before a call.\n");
    print_operations();
    print_checks();
    print_checks_up_to();
    print_growth();
    print_extremes();
    print_sums();
    print_fills();
    return 0;
}

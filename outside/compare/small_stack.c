#define _DEFAULT_SOURCE
#include "small_stack.h"

#include "nessflurry.h"

#include <pthread.h>
#include <signal.h>
#include <stdbool.h>
#include <stdint.h>
#include <stdio.h>
#include <stdlib.h>
#include <sys/mman.h>
#include <unistd.h>

static size_t page_size(void) { return (size_t)sysconf(_SC_PAGESIZE); }

static void demand_room(bool got)
{
    if (got)
        return;
    perror("no thread to test on");
    exit(2);
}

/* ---- The stack ---- */

/* Fresh pages, none of which anyone has touched. */
static uint8_t *open_stack(void)
{
    size_t page = page_size();
    uint8_t *whole = mmap(NULL, NESSFLURRY_CHECK_STACK + 2 * page, PROT_NONE, MAP_PRIVATE | MAP_ANONYMOUS, -1, 0);
    demand_room(whole != MAP_FAILED && mprotect(whole + page, NESSFLURRY_CHECK_STACK, PROT_READ | PROT_WRITE) == 0);
    return whole + page;
}

static void close_stack(uint8_t *stack)
{
    size_t page = page_size();
    munmap(stack - page, NESSFLURRY_CHECK_STACK + 2 * page);
}

/* The lowest page that was touched: what nobody has touched is not in memory. */
static uint8_t *lowest_touched(uint8_t *stack)
{
    unsigned char in_memory[NESSFLURRY_CHECK_STACK / 1024]; /* a page has more than 1,024 bytes */
    size_t page = page_size(), lowest = 0;
    demand_room(mincore(stack, NESSFLURRY_CHECK_STACK, in_memory) == 0);
    while ((in_memory[lowest] & 1) == 0)
        lowest++;
    return stack + lowest * page;
}

/* ---- The thread ---- */

struct task {
    void (*work)(void *);
    void *with;
    uint8_t *top; /* where the stack of the work begins: above it is what the thread itself keeps there */
};

/* Signals have a stack of their own meanwhile, for work that has used up the other. */
static void *do_task(void *given)
{
    static uint8_t signal_stack[64 * 1024];
    const stack_t own = {.ss_sp = signal_stack, .ss_size = sizeof signal_stack};
    struct task *task = given;
    stack_t before;
    task->top = (uint8_t *)&before;
    sigaltstack(&own, &before);
    task->work(task->with);
    sigaltstack(&before, NULL);
    return NULL;
}

size_t on_small_stack(void (*work)(void *), void *with)
{
    struct task task = {.work = work, .with = with};
    uint8_t *stack = open_stack();
    pthread_attr_t attributes;
    pthread_t thread;
    demand_room(pthread_attr_init(&attributes) == 0 && pthread_attr_setstack(&attributes, stack, NESSFLURRY_CHECK_STACK) == 0
                && pthread_create(&thread, &attributes, do_task, &task) == 0 && pthread_join(thread, NULL) == 0);
    size_t used = (size_t)(task.top - lowest_touched(stack));
    pthread_attr_destroy(&attributes);
    close_stack(stack);
    return used;
}

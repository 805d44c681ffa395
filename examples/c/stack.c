/* Measures how much of the stack a call touches: makes it in a thread whose stack is painted first. The status is 1
 * where that is more than GORVANETH_STACK. */
#define _POSIX_C_SOURCE 200809L
#include "gorvaneth.h"
#include "longest.h"

#include <pthread.h>
#include <stdio.h>
#include <string.h>

#define PAINT 0xA5
#define ROOM 1048576

static char text[GORVANETH_TEXT + 2];
static size_t length, count;
static union {
    uint8_t bytes[ROOM];
    long double aligned;
} stack;

static void *call(void *unused)
{
    uint8_t line[GORVANETH_LINE];
    count = gorvaneth_report((const uint8_t *)text, length, (const uint8_t *)text, length, line, sizeof line);
    return unused;
}

static void *nothing(void *unused)
{
    return unused;
}

/* How many bytes of a painted stack a thread touches. */
static size_t touched(void *(*run)(void *))
{
    pthread_attr_t attributes;
    pthread_t thread;
    size_t i = 0;
    memset(stack.bytes, PAINT, ROOM);
    if (pthread_attr_init(&attributes) || pthread_attr_setstack(&attributes, stack.bytes, ROOM)
        || pthread_create(&thread, &attributes, run, NULL) || pthread_join(thread, NULL))
        return ROOM;
    pthread_attr_destroy(&attributes);
    while (i < ROOM && stack.bytes[i] == PAINT)
        i++;
    return ROOM - i;
}

int main(void)
{
    size_t without, with;
    length = longest_text(text);
    without = touched(nothing);
    with = touched(call);
    printf("a call on two tables of 16 states and 6 letters touches about %lu KiB of stack\n",
           (unsigned long)((with - without + 1023) / 1024));
    return !(count == 24 && with - without <= GORVANETH_STACK);
}

/* Loops over an array, a recursion, and numbers at random. */
#include "begin.h"

#define COUNT 64
#define APART __attribute__((noinline))

static long data[COUNT];
static unsigned long seed = 7;

static unsigned next_number(void)
{
    seed = seed * 6364136223846793005UL + 1442695040888963407UL;
    return (unsigned)(seed >> 33);
}

APART static void sort(long *items, int count)
{
    for (int i = 1; i < count; i++) {
        long item = items[i];
        int place = i - 1;
        for (; place >= 0 && items[place] > item; place--)
            items[place + 1] = items[place];
        items[place + 1] = item;
    }
}

APART static long sum(const long *items, int count)
{
    long total = 0;
    for (int i = 0; i < count; i++)
        total += items[i];
    return total;
}

APART static int fibonacci(int n)
{
    return n < 2 ? n : fibonacci(n - 1) + fibonacci(n - 2);
}

int start(void)
{
    for (int i = 0; i < COUNT; i++)
        data[i] = next_number() % 1000;
    sort(data, COUNT);
    return (int)(sum(data, COUNT) + fibonacci(10));
}

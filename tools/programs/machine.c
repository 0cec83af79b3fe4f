/* A small machine with a switch in a loop, a switch without one, a hash, and a call through a table. */
#include "begin.h"

#define APART __attribute__((noinline))

enum { PUSH, ADD, MULTIPLY, NEGATE, ARGUMENT, EXCLUSIVE, STOP };

static unsigned char code[] = {PUSH, 5, ADD, 3, PUSH, 7, MULTIPLY, ARGUMENT, EXCLUSIVE, NEGATE, STOP};
static long stack[32];

APART static long run(const unsigned char *at, long argument)
{
    long *top = stack;
    for (;;)
        switch (*at++) {
        case PUSH: *top++ = *at++; break;
        case ADD: top[-1] += *at++; break;
        case MULTIPLY: top--; top[-1] *= top[0]; break;
        case NEGATE: top[-1] = -top[-1]; break;
        case ARGUMENT: *top++ = argument; break;
        case EXCLUSIVE: top--; top[-1] ^= top[0]; break;
        case STOP: return top[-1];
        default: return -1;
        }
}

APART static unsigned hash(const char *text)
{
    unsigned number = 5381;
    while (*text)
        number = number * 33 ^ (unsigned char)*text++;
    return number;
}

APART static int kind_of(int letter)
{
    switch (letter) {
    case 'a': case 'e': return 1;
    case '0': return 2;
    case '1': return 3;
    case '2': return 5;
    case '3': return 7;
    case '4': return 11;
    case ' ': return 13;
    default: return 0;
    }
}

static long (*volatile runs[2])(const unsigned char *, long) = {run, run};

int start(void)
{
    volatile int turn = 3;
    char text[16];
    for (int i = 0; i < 15; i++)
        text[i] = (char)('a' + (turn + i) % 26);
    text[15] = 0;
    return (int)runs[turn & 1](code, turn) + (int)hash(text) + kind_of(text[3]);
}

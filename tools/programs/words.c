/* Text, a list of records, divisions, and a system call. */
#include "begin.h"

#define APART __attribute__((noinline))

struct record {
    struct record *next;
    int key;
    short tag;
    unsigned char is_used;
};

APART unsigned long length(const char *text)
{
    unsigned long count = 0;
    while (text[count])
        count++;
    return count;
}

APART int compare(const char *one, const char *other)
{
    for (; *one && *one == *other; one++)
        other++;
    return (unsigned char)*one - (unsigned char)*other;
}

APART char *append(char *text, const char *more)
{
    char *at = text + length(text);
    while ((*at++ = *more++))
        ;
    return text;
}

APART int decimal(char *text, long number)
{
    char digits[24];
    int count = 0, sign = number < 0;
    if (sign) {
        *text++ = '-';
        number = -number;
    }
    do
        digits[count++] = (char)('0' + number % 10);
    while (number /= 10);
    for (int i = 0; i < count; i++)
        text[i] = digits[count - 1 - i];
    text[count] = 0;
    return count + sign;
}

APART struct record *find(struct record *list, int key)
{
    for (; list; list = list->next)
        if (list->key == key && list->is_used)
            return list;
    return 0;
}

APART void add(struct record **list, struct record *record)
{
    record->next = *list;
    record->tag = (short)(record->key >> 3);
    *list = record;
}

APART long print(const char *text, unsigned long count)
{
    long answer;
    __asm__ volatile("syscall" : "=a"(answer) : "a"(1), "D"(1), "S"(text), "d"(count) : "rcx", "r11", "memory");
    return answer;
}

int start(void)
{
    char text[64];
    struct record first = {0, 5, 0, 1}, second = {0, 9, 0, 0}, *list = 0, *found;
    add(&list, &first);
    add(&list, &second);
    decimal(text, -12345);
    append(text, "\n");
    print(text, length(text));
    found = find(list, 5);
    return compare(text, "-1") + (found ? found->tag : 0);
}

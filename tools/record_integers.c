/* Runs the processor's own instructions on edge values and prints what they give, as the rows of
 * crates/x86_tests/src/recorded.rt. Numbers are hexadecimal, the four flags one digit: 8 carry, 4 zero, 2 sign,
 * 1 overflow. A divide error (#DE) is two dashes. Flags that the manual leaves undefined are not printed. */
#include <setjmp.h>
#include <signal.h>
#include <stdint.h>
#include <stdio.h>

static sigjmp_buf divide_error;
static void on_divide_error(int signal) { (void)signal; siglongjmp(divide_error, 1); }

#define TWO_OPERANDS(NAME, INSTRUCTION, T)                                                               \
    static void NAME##_##T(T a, T b, uint8_t carry) {                                                    \
        uint8_t c, z, s, o;                                                                              \
        __asm__ volatile("addb $0xff, %[carry]\n\t" INSTRUCTION " %[b], %[a]\n\t"                        \
                         "setc %[c]\n\tsetz %[z]\n\tsets %[s]\n\tseto %[o]"                              \
                         : [a] "+&q"(a), [carry] "+&q"(carry), [c] "=&q"(c), [z] "=&q"(z), [s] "=&q"(s), \
                           [o] "=&q"(o)                                                                  \
                         : [b] "q"(b)                                                                    \
                         : "cc");                                                                        \
        printf(" %llx %x", (unsigned long long)a, c << 3 | z << 2 | s << 1 | o);                          \
    }

#define BY_COUNT(NAME, INSTRUCTION, T)                                                       \
    static void NAME##_##T(T a, uint8_t count) {                                             \
        __asm__ volatile(INSTRUCTION " %%cl, %[a]" : [a] "+&q"(a) : "c"(count) : "cc");      \
        printf(" %llx", (unsigned long long)a);                                              \
    }

#define WIDE(T, MULTIPLY, DIVIDE, M, D)                                                                  \
    static void MULTIPLY##_##T(T a, T b) {                                                               \
        T low = a, high;                                                                                 \
        __asm__ volatile(M " %[b]" : "+&a"(low), "=&d"(high) : [b] "r"(b) : "cc");                       \
        printf(" %llx %llx", (unsigned long long)low, (unsigned long long)high);                         \
    }                                                                                                    \
    static void DIVIDE##_##T(T high, T low, T by) {                                                      \
        T quotient = low, rest = high;                                                                   \
        if (sigsetjmp(divide_error, 1)) {                                                                \
            printf(" - -");                                                                              \
            return;                                                                                      \
        }                                                                                                \
        __asm__ volatile(D " %[by]" : "+&a"(quotient), "+&d"(rest) : [by] "r"(by) : "cc");               \
        printf(" %llx %llx", (unsigned long long)quotient, (unsigned long long)rest);                    \
    }

/* At 8 bits the two halves are AL and AH. */
#define WIDE_8(MULTIPLY, DIVIDE, M, D)                                                                   \
    static void MULTIPLY##_uint8_t(uint8_t a, uint8_t b) {                                               \
        uint16_t ax = a;                                                                                 \
        __asm__ volatile(M " %[b]" : "+&a"(ax) : [b] "q"(b) : "cc");                                     \
        printf(" %x %x", ax & 0xff, ax >> 8);                                                            \
    }                                                                                                    \
    static void DIVIDE##_uint8_t(uint8_t high, uint8_t low, uint8_t by) {                                \
        uint16_t ax = (uint16_t)(high << 8 | low);                                                       \
        if (sigsetjmp(divide_error, 1)) {                                                                \
            printf(" - -");                                                                              \
            return;                                                                                      \
        }                                                                                                \
        __asm__ volatile(D " %[by]" : "+&a"(ax) : [by] "q"(by) : "cc");                                  \
        printf(" %x %x", ax & 0xff, ax >> 8);                                                            \
    }

#define WIDTH(T, BITS)                                                                                   \
    TWO_OPERANDS(add, "add", T)                                                                          \
    TWO_OPERANDS(or, "or", T)                                                                            \
    TWO_OPERANDS(adc, "adc", T)                                                                          \
    TWO_OPERANDS(sbb, "sbb", T)                                                                          \
    TWO_OPERANDS(and, "and", T)                                                                          \
    TWO_OPERANDS(sub, "sub", T)                                                                          \
    TWO_OPERANDS(xor, "xor", T)                                                                          \
    BY_COUNT(rol, "rol", T)                                                                              \
    BY_COUNT(ror, "ror", T)                                                                              \
    BY_COUNT(shl, "shl", T)                                                                              \
    BY_COUNT(shr, "shr", T)                                                                              \
    BY_COUNT(sar, "sar", T)                                                                              \
    static void arithmetic_##T(uint64_t a, uint64_t b) {                                                 \
        printf("%d %llx %llx", BITS, (unsigned long long)a, (unsigned long long)b);                      \
        add_##T(a, b, 0), or_##T(a, b, 0), adc_##T(a, b, 0), adc_##T(a, b, 1), sbb_##T(a, b, 0);         \
        sbb_##T(a, b, 1), and_##T(a, b, 0), sub_##T(a, b, 0), xor_##T(a, b, 0);                          \
        printf("\n");                                                                                    \
    }                                                                                                    \
    static void shifts_##T(uint64_t a, uint8_t count) {                                                  \
        printf("%d %llx %x", BITS, (unsigned long long)a, count);                                        \
        rol_##T(a, count), ror_##T(a, count), shl_##T(a, count), shr_##T(a, count), sar_##T(a, count);   \
        printf("\n");                                                                                    \
    }                                                                                                    \
    static void product_##T(uint64_t a, uint64_t b) {                                                    \
        printf("%d %llx %llx", BITS, (unsigned long long)a, (unsigned long long)b);                      \
        mul_##T(a, b), imul_##T(a, b);                                                                   \
        printf("\n");                                                                                    \
    }                                                                                                    \
    static void quotient_##T(uint64_t high, uint64_t low, uint64_t by) {                                 \
        printf("%d %llx %llx %llx", BITS, (unsigned long long)high, (unsigned long long)low,             \
               (unsigned long long)by);                                                                  \
        div_##T(high, low, by), idiv_##T(high, low, by);                                                 \
        printf("\n");                                                                                    \
    }

WIDE_8(mul, div, "mulb", "divb")
WIDE_8(imul, idiv, "imulb", "idivb")
WIDE(uint16_t, mul, div, "mulw", "divw")
WIDE(uint16_t, imul, idiv, "imulw", "idivw")
WIDE(uint32_t, mul, div, "mull", "divl")
WIDE(uint32_t, imul, idiv, "imull", "idivl")
WIDE(uint64_t, mul, div, "mulq", "divq")
WIDE(uint64_t, imul, idiv, "imulq", "idivq")
WIDTH(uint8_t, 8)
WIDTH(uint16_t, 16)
WIDTH(uint32_t, 32)
WIDTH(uint64_t, 64)

#define BY_WIDTH(CALL, ...)                  \
    do {                                     \
        if (bits == 8) CALL##_uint8_t(__VA_ARGS__);   \
        if (bits == 16) CALL##_uint16_t(__VA_ARGS__); \
        if (bits == 32) CALL##_uint32_t(__VA_ARGS__); \
        if (bits == 64) CALL##_uint64_t(__VA_ARGS__); \
    } while (0)

#define HOLDS(CODE)                                                                             \
    {                                                                                           \
        uint8_t holds;                                                                          \
        __asm__ volatile("pushq %[flags]\n\tpopfq\n\tset" CODE " %[holds]"                      \
                         : [holds] "=q"(holds)                                                  \
                         : [flags] "r"(flags)                                                   \
                         : "cc", "memory");                                                     \
        printf(" %d", holds);                                                                   \
    }

static void conditions(int row) {
    uint64_t flags = (uint64_t)(2 | (row >> 3 & 1) | (row >> 2 & 1) << 6 | (row >> 1 & 1) << 7 | (row & 1) << 11);
    printf("%x", row);
    HOLDS("o") HOLDS("no") HOLDS("b") HOLDS("ae") HOLDS("e") HOLDS("ne") HOLDS("be") HOLDS("a") HOLDS("s") HOLDS("ns")
    HOLDS("l") HOLDS("ge") HOLDS("le") HOLDS("g")
    printf("\n");
}

int main(void) {
    static const int widths[] = {8, 16, 32, 64};
    static const uint8_t counts[] = {0, 1, 7, 9, 31, 32, 63, 64, 255};
    const uint64_t one = 0x9e3779b97f4a7c15, two = 0xd1b54a32d192ed03; /* with bits above every width */
    int at, row;
    signal(SIGFPE, on_divide_error);
    printf("arithmetic\n");
    for (at = 0; at < 4; at++) {
        const int bits = widths[at];
        const uint64_t half = 1ull << (bits - 1), mask = half - 1 + half;
        const uint64_t pairs[][2] = {{0, 0}, {0, 1}, {1, 1}, {half - 1, 1}, {half, 1}, {half, half}, {half - 1, half},
                                     {mask, 1}, {mask, mask}, {0, mask}, {0, half}, {one, two}, {two, one}};
        for (row = 0; row < 13; row++) BY_WIDTH(arithmetic, pairs[row][0], pairs[row][1]);
    }
    printf("shifts\n");
    for (at = 0; at < 4; at++) {
        const int bits = widths[at];
        const uint64_t values[] = {1ull << (bits - 1) | 1, one};
        for (row = 0; row < 18; row++) BY_WIDTH(shifts, values[row / 9], counts[row % 9]);
    }
    printf("products\n");
    for (at = 0; at < 4; at++) {
        const int bits = widths[at];
        const uint64_t half = 1ull << (bits - 1), mask = half - 1 + half;
        const uint64_t pairs[][2] = {{0, mask}, {1, mask}, {mask, mask}, {half, half}, {half, mask}, {half - 1, half - 1},
                                     {half - 1, half}, {2, half}, {one, two}};
        for (row = 0; row < 9; row++) BY_WIDTH(product, pairs[row][0], pairs[row][1]);
    }
    printf("quotients\n");
    for (at = 0; at < 4; at++) {
        const int bits = widths[at];
        const uint64_t half = 1ull << (bits - 1), mask = half - 1 + half;
        const uint64_t rows[][3] = {{0, 7, 0}, {0, 7, 2}, {mask, mask - 6, 2}, {0, 7, mask - 1}, {mask, mask - 6, mask - 1},
                                    {mask, half, mask}, {mask, half, 1}, {0, half, mask}, {1, 0, 1}, {1, 0, 2}, {half, 0, mask},
                                    {0, mask, mask}, {mask - 1, mask, mask}, {half >> 1, 0, half}, {one >> 3, two, two}};
        for (row = 0; row < 15; row++) BY_WIDTH(quotient, rows[row][0], rows[row][1], rows[row][2]);
    }
    printf("conditions\n");
    for (row = 0; row < 16; row++) conditions(row);
    return 0;
}

/* Executes single instructions on the processor and prints the states before and after each, the rows of
 * crates/step_replay/stdin. A row has the instruction's bytes; then rax rcx rdx rbx rsp rbp, the eight bytes at CELL and
 * the flags before it; then which flags the manual determines; then the same numbers, with these flags alone,
 * and rip after it, or the word fault. Numbers are hexadecimal; flags are one digit: 1 carry, 2 zero, 4 sign, 8 overflow. */
#define _GNU_SOURCE
#include <setjmp.h>
#include <signal.h>
#include <stdint.h>
#include <stdio.h>
#include <stdlib.h>
#include <string.h>
#include <sys/mman.h>

enum { CELL = 0x10000000, DATA = 0x10001000, CODE = 0x20000000, TARGET = CODE + 0x100, ENTRY = CODE + 0x400, EXIT = CODE + 0x800 };
enum { CASES = 20, MEMORY = 8 };
struct data { uint64_t in[8], in_flags, out[8], out_flags, stack, landing; };
static struct data *const data = (struct data *)DATA;
static uint64_t *const cell = (uint64_t *)CELL;

static sigjmp_buf fault;
static void on_fault(int signal) { (void)signal; siglongjmp(fault, 1); }

static uint64_t seed = 0x9e3779b97f4a7c15;
static uint64_t any(void) { seed ^= seed << 13; seed ^= seed >> 7; seed ^= seed << 17; return seed; }
static unsigned below(unsigned n) { return (unsigned)(any() >> 33) % n; }
static uint64_t number(void) {
    switch (below(6)) {
    case 0: return below(3) - 1ULL;
    case 1: return (1ULL << below(64)) - below(2);
    case 2: return any() & 0xff;
    case 3: return any() | 0x8080000080008080;
    default: return any();
    }
}

/* The bytes of code that are put down. */
static uint8_t *at;
static void byte(unsigned b) { *at++ = (uint8_t)b; }
static void little(uint64_t n, int bytes) { while (bytes-- > 0) { byte(n & 0xff); n >>= 8; } }
static void absolute(int rex_w, unsigned opcode, unsigned reg, void *place) {
    if (rex_w) byte(0x48);
    byte(opcode); byte(reg << 3 | 4); byte(0x25); little((uint64_t)(uintptr_t)place, 4);
}
static void jump_to(uint64_t to) { byte(0xe9); little(to - ((uint64_t)(uintptr_t)at + 4), 4); }
static void landing(unsigned id) {
    absolute(0, 0xc7, 0, &data->landing); little(id, 4); jump_to(EXIT);
}

static void put_frame(void) {
    static const uint8_t saves[] = {0x53, 0x55, 0x41, 0x54, 0x41, 0x55, 0x41, 0x56, 0x41, 0x57};
    static const uint8_t restores[] = {0x41, 0x5f, 0x41, 0x5e, 0x41, 0x5d, 0x41, 0x5c, 0x5d, 0x5b, 0xc3};
    at = (uint8_t *)ENTRY;
    for (size_t i = 0; i < sizeof saves; i++) byte(saves[i]);
    absolute(1, 0x89, 4, &data->stack);
    absolute(0, 0xff, 6, &data->in_flags); byte(0x9d);
    for (unsigned r = 0; r < 8; r++) absolute(1, 0x8b, r, &data->in[r]);
    jump_to(CODE);
    at = (uint8_t *)EXIT;
    for (unsigned r = 0; r < 8; r++) absolute(1, 0x89, r, &data->out[r]);
    absolute(1, 0x8b, 4, &data->stack);
    byte(0x9c); absolute(0, 0x8f, 0, &data->out_flags);
    for (size_t i = 0; i < sizeof restores; i++) byte(restores[i]);
    at = (uint8_t *)TARGET;
    landing(2);
}

static unsigned digit(uint64_t f) { return (f & 1) | (f >> 6 & 1) << 1 | (f >> 7 & 1) << 2 | (f >> 11 & 1) << 3; }
static void print_state(const uint64_t *r, uint64_t flags, unsigned mask) {
    for (int i = 0; i < 6; i++) printf(" %llx", (unsigned long long)r[i]);
    printf(" %llx %x", (unsigned long long)*cell, digit(flags) & mask);
}

/* Runs the instruction that was put down at CODE. */
static void run(unsigned mask) {
    unsigned len = (unsigned)(at - (uint8_t *)CODE);
    for (unsigned i = 0; i < len; i++) printf("%02x", ((uint8_t *)CODE)[i]);
    landing(1);
    data->in_flags = 0x202 | (any() & 0x8c1);
    print_state(data->in, data->in_flags, 0xf);
    printf(" %x", mask);
    if (sigsetjmp(fault, 1)) { printf(" fault\n"); return; }
    ((void (*)(void))(uintptr_t)ENTRY)();
    print_state(data->out, data->out_flags, mask);
    printf(" %x\n", data->landing == 1 ? CODE + len : TARGET);
}

static void start(void) {
    at = (uint8_t *)CODE;
    for (int r = 0; r < 8; r++) data->in[r] = number();
    data->in[4] = CELL + 8; data->in[5] = CELL; data->in[6] = CELL;
    *cell = number();
}
static void prefix(int w) { if (w == 16) byte(0x66); if (w == 64) byte(0x48); }
static unsigned some_register(int w) { return below(w == 8 ? 8 : 4); }
/* ModRM with a register, or the place [rsi]. */
static void modrm(unsigned reg, int w) {
    unsigned r = below(3) ? some_register(w) : MEMORY;
    byte(r == MEMORY ? reg << 3 | 6 : 0xc0 | reg << 3 | r);
}
static unsigned sized(unsigned opcode, int w) { return opcode | (w != 8); }

static void two_operands(unsigned opcode, int w, unsigned mask) {
    start(); prefix(w); byte(sized(opcode, w)); modrm(some_register(w), w); run(mask);
}
static void one_operand(unsigned opcode, unsigned digit_of, int w, unsigned mask) {
    start(); prefix(w); byte(sized(opcode, w)); modrm(digit_of, w); run(mask);
}
static void with_immediate(unsigned opcode, unsigned digit_of, int w, int bytes, unsigned mask) {
    start(); prefix(w); byte(opcode); modrm(digit_of, w); little(number(), bytes); run(mask);
}
static void escaped(unsigned opcode, int w, int source, unsigned mask) {
    start(); prefix(w); byte(0x0f); byte(opcode);
    unsigned r = below(3) ? some_register(source == 8 ? 4 : source) : MEMORY;
    unsigned reg = below(4);
    byte(r == MEMORY ? reg << 3 | 6 : 0xc0 | reg << 3 | r); run(mask);
}
static int immediate(int w) { return w == 8 ? 1 : w == 16 ? 2 : 4; }

static void arithmetic(int w) {
    for (unsigned k = 0; k < 8; k++)
        for (int i = 0; i < CASES; i++) switch (i % 5) {
            case 0: with_immediate(sized(0x80, w), k, w, immediate(w), 0xf); break;
            case 1: if (w != 8) { with_immediate(0x83, k, w, 1, 0xf); break; } /* fall through */
            case 2: two_operands(8 * k + 2, w, 0xf); break;
            default: two_operands(8 * k, w, 0xf);
        }
    for (int i = 0; i < CASES; i++) {
        if (i % 2) two_operands(0x84, w, 0xf); else with_immediate(sized(0xf6, w), 0, w, immediate(w), 0xf);
        two_operands(i % 2 ? 0x88 : 0x8a, w, 0xf);
        with_immediate(sized(0xc6, w), 0, w, immediate(w), 0xf);
        one_operand(0xf6, 2, w, 0xf); one_operand(0xf6, 3, w, 0xf);
        one_operand(0xfe, 0, w, 0xf); one_operand(0xfe, 1, w, 0xf);
        two_operands(0x86, w, 0xf);
        start(); prefix(w); byte((w == 8 ? 0xb0 : 0xb8) + some_register(w)); little(number(), w / 8); run(0xf);
    }
}
static void shifts(int w) {
    static const unsigned digits[] = {0, 1, 4, 5, 7};
    for (int k = 0; k < 5; k++)
        for (int i = 0; i < CASES; i++) {
            if (i % 4 == 0) { one_operand(0xd0, digits[k], w, 6); continue; }
            start(); prefix(w);
            if (i % 4 == 1) {
                byte(sized(0xc0, w)); modrm(digits[k], w); byte(below(256 / 32) * 32 + 1 + below(31)); run(6);
                continue;
            }
            data->in[1] = i == 2 ? 0 : i == 3 ? 0x20 : any();
            byte(sized(0xd2, w)); modrm(digits[k], w); run(6);
        }
}
static void wide(int w) {
    for (int i = 0; i < CASES; i++) {
        one_operand(0xf7, 4, w, 9); one_operand(0xf7, 5, w, 9);
        for (unsigned k = 6; k < 8; k++) {
            start(); prefix(w); byte(0xf7);
            if (i % 4) data->in[2] = k == 7 ? (uint64_t)-(int64_t)(below(2)) : below(4);
            modrm(k, w); run(0);
        }
        escaped(0xaf, w, w, 9);
        start(); prefix(w);
        int small = i % 2;
        byte(small ? 0x6b : 0x69); modrm(below(4), w); little(number(), small ? 1 : immediate(w)); run(9);
    }
}
static void moves(int w) {
    for (int i = 0; i < CASES; i++) {
        start(); prefix(w); byte(0x8d); byte(below(4) << 3 | 0x44); byte(below(4) << 6 | below(4) << 3 | below(4));
        byte(below(256)); run(0xf);
        escaped(0xb6, w, 8, 0xf); escaped(0xbe, w, 8, 0xf); escaped(0xb7, w, 16, 0xf); escaped(0xbf, w, 16, 0xf);
        start(); prefix(w); byte(0x98); run(0xf);
        start(); prefix(w); byte(0x99); run(0xf);
        start(); prefix(w); byte(0x91 + below(3)); run(0xf);
        if (w != 16) { start(); prefix(w); byte(0x0f); byte(0xc8 + below(4)); run(0xf); }
    }
    for (unsigned cc = 0; cc < 16; cc++)
        for (int i = 0; i < 3 && cc != 10 && cc != 11; i++) escaped(0x40 + cc, w, w, 0xf);
}
static void stack(void) {
    for (int i = 0; i < CASES; i++) {
        start(); byte(0x50 + below(6)); run(0xf);
        start(); byte(0xff); modrm(6, 64); run(0xf);
        start(); byte(i % 2 ? 0x6a : 0x68); little(number(), i % 2 ? 1 : 4); run(0xf);
        start(); data->in[4] = CELL; byte(0x58 + below(6)); run(0xf);
        start(); byte(0xc9); run(0xf);
        start(); data->in[4] = CELL; *cell = TARGET; byte(0xc3); run(0xf);
        start(); byte(0xe8); little(TARGET - CODE - 5, 4); run(0xf);
        start(); byte(0xff); data->in[2] = *cell = TARGET; byte(i % 2 ? 0xd2 : 0x16); run(0xf);
        start(); byte(0xff); data->in[2] = *cell = TARGET; byte(i % 2 ? 0xe2 : 0x26); run(0xf);
        start(); byte(0xe9); little(TARGET - CODE - 5, 4); run(0xf);
        start(); byte(0x48); byte(0x63); modrm(below(4), 32); run(0xf);
        start(); byte(0x90); run(0xf);
        start(); byte(0x0f); byte(0x1f); modrm(0, 32); run(0xf);
    }
    for (unsigned cc = 0; cc < 16; cc++)
        for (int i = 0; i < 3 && cc != 10 && cc != 11; i++) {
            start(); byte(0x0f); byte(0x80 + cc); little(TARGET - CODE - 6, 4); run(0xf);
            start(); byte(0x0f); byte(0x90 + cc); modrm(0, 8); run(0xf);
        }
}

int main(void) {
    static const int widths[] = {8, 16, 32, 64};
    int rights = PROT_READ | PROT_WRITE | PROT_EXEC, flags = MAP_PRIVATE | MAP_ANONYMOUS | MAP_FIXED_NOREPLACE;
    if (mmap((void *)CELL, 0x2000, rights, flags, -1, 0) != (void *)CELL) return 1;
    if (mmap((void *)CODE, 0x1000, rights, flags, -1, 0) != (void *)CODE) return 1;
    struct sigaction action = {.sa_handler = on_fault, .sa_flags = SA_ONSTACK};
    stack_t other = {.ss_sp = malloc(1 << 16), .ss_size = 1 << 16};
    if (sigaltstack(&other, NULL) || sigaction(SIGFPE, &action, NULL)) return 1;
    put_frame();
    for (int k = 0; k < 4; k++) {
        arithmetic(widths[k]);
        shifts(widths[k]);
        if (widths[k] != 8) { wide(widths[k]); moves(widths[k]); }
    }
    stack();
    return 0;
}

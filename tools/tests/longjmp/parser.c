/* A parser that leaves nested calls by longjmp at an error. It ends with the number of errors times 16 plus the number of texts that
   it read. Built by riscv64-unknown-elf-gcc 12.2 -Os -march=rv64imac -mabi=lp64 with picolibc 1.8, without .eh_frame. The file `trace`
   has the addresses that qemu-riscv64 executed, one after the other. */
#include <setjmp.h>
static jmp_buf fail;
static const char *volatile at;
__attribute__((noinline)) static long sum(void);
__attribute__((noinline)) static void error(int code) { longjmp(fail, code); }
__attribute__((noinline)) static long atom(void) {
    if (*at == '(') { at++; long v = sum(); if (*at != ')') error(2); at++; return v; }
    if (*at < '0' || *at > '9') error(1);
    long v = 0;
    while (*at >= '0' && *at <= '9') v = 10 * v + (*at++ - '0');
    return v;
}
static long sum(void) { long v = atom(); while (*at == '+') { at++; v += atom(); } return v; }
static const char *const texts[] = { "1+23", "(1+2", "x", "2+(3+4)", "((((7))))", "1++2" };
int main(void) {
    volatile int errors = 0, good = 0;
    for (volatile unsigned i = 0; i < sizeof texts / sizeof *texts; i++) {
        if (setjmp(fail)) { errors++; continue; }
        at = texts[i];
        sum();
        good++;
    }
    return errors * 16 + good;
}
__attribute__((noreturn)) void _start(void) {
    register long status __asm__("a0") = main();
    register long call __asm__("a7") = 93;
    __asm__ volatile("ecall" : : "r"(status), "r"(call));
    __builtin_unreachable();
}

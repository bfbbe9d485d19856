#include <setjmp.h>
#include <stdio.h>
#include <stdlib.h>
#include <string.h>
/* A parser of sums that leaves by longjmp at an error, many calls deep. */
static jmp_buf wrong; static const char *at;
static long expr(void);
static long atom(void) {
    if (*at == '(') { at++; long v = expr(); if (*at != ')') longjmp(wrong, 2); at++; return v; }
    if (*at < '0' || *at > '9') longjmp(wrong, 1);
    long v = 0; while (*at >= '0' && *at <= '9') v = v * 10 + (*at++ - '0'); return v;
}
static long term(void) { long v = atom(); while (*at == '*') { at++; v *= atom(); } return v; }
static long expr(void) { long v = term(); while (*at == '+' || *at == '-') { char c = *at++; long w = term(); v = c == '+' ? v + w : v - w; } return v; }
int main(void) {
    static const char *const given[] = { "1+2*3", "((4+5)*6-7)*8", "(1+(2*", "7*x", "((((9))))", "(3+4" };
    long sum = 0, bad = 0;
    for (int i = 0; i < 6000; i++) {
        at = given[i % 6];
        if (setjmp(wrong)) { bad++; continue; }
        sum += expr();
    }
    printf("%ld %ld\n", sum, bad);
    return 0;
}

#include <stdio.h>
#include <ucontext.h>
/* Two coroutines that hand numbers to each other. */
static ucontext_t main_context, even, odd; static long sum; static char stacks[2][65536];
static void evens(void) { for (int i = 0; i < 500; i++) { sum += 2 * i; swapcontext(&even, &odd); } }
static void odds(void) { for (int i = 0; i < 500; i++) { sum += 2 * i + 1; swapcontext(&odd, &even); } }
int main(void) {
    getcontext(&even); even.uc_stack.ss_sp = stacks[0]; even.uc_stack.ss_size = 65536; even.uc_link = &main_context; makecontext(&even, evens, 0);
    getcontext(&odd); odd.uc_stack.ss_sp = stacks[1]; odd.uc_stack.ss_size = 65536; odd.uc_link = &main_context; makecontext(&odd, odds, 0);
    swapcontext(&main_context, &even);
    printf("%ld\n", sum);
    return 0;
}

#include <signal.h>
#include <stdio.h>
#include <string.h>
#include <unistd.h>
#include <sys/time.h>
static volatile sig_atomic_t ticks; static volatile long work;
static void tick(int n) { ticks++; }
static void raised(int n, siginfo_t *info, void *context) { work += n; }
static long collatz(long n) { long k = 0; while (n != 1) { n = n & 1 ? 3 * n + 1 : n / 2; k++; } return k; }
int main(void) {
    struct sigaction a; memset(&a, 0, sizeof a); a.sa_handler = tick; sigaction(SIGALRM, &a, 0);
    memset(&a, 0, sizeof a); a.sa_sigaction = raised; a.sa_flags = SA_SIGINFO; sigaction(SIGUSR1, &a, 0);
    struct itimerval t = { { 0, 20000 }, { 0, 20000 } }; setitimer(ITIMER_REAL, &t, 0);
    long sum = 0;
    for (long i = 1; i < 2000; i++) { sum += collatz(i); if (i % 200 == 0) raise(SIGUSR1); }
    memset(&t, 0, sizeof t); setitimer(ITIMER_REAL, &t, 0);
    printf("%ld %d %ld\n", sum, ticks > 0, work);
    return 0;
}

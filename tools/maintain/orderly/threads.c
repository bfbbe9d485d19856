#include <pthread.h>
#include <stdio.h>
#include <stdlib.h>
#include <string.h>
static pthread_mutex_t lock = PTHREAD_MUTEX_INITIALIZER; static long total;
static int is_prime(int n) { for (int d = 2; d * d <= n; d++) if (n % d == 0) return 0; return n > 1; }
static void *count(void *of) {
    long from = (long)of, found = 0;
    for (long n = from; n < from + 3000; n++) found += is_prime(n);
    pthread_mutex_lock(&lock); total += found; pthread_mutex_unlock(&lock);
    return (void *)found;
}
int main(void) {
    pthread_t t[4]; long sum = 0;
    for (long i = 0; i < 4; i++) pthread_create(&t[i], 0, count, (void *)(i * 3000));
    for (int i = 0; i < 4; i++) { void *found; pthread_join(t[i], &found); sum += (long)found; }
    printf("%ld %ld\n", sum, total);
    return 0;
}

#include <stdio.h>
#include <stdlib.h>
#include <string.h>
struct node { struct node *next; char key[16]; long count; };
static struct node *table[512];
static unsigned hash(const char *s) { unsigned h = 5381; while (*s) h = h * 33 + (unsigned char)*s++; return h % 512; }
static struct node *find(const char *key) {
    struct node **at = &table[hash(key)];
    for (; *at; at = &(*at)->next) if (!strcmp((*at)->key, key)) return *at;
    *at = calloc(1, sizeof **at); strcpy((*at)->key, key); return *at;
}
static int by_count(const void *a, const void *b) {
    const struct node *const *x = a, *const *y = b;
    if ((*x)->count != (*y)->count) return (*x)->count < (*y)->count ? 1 : -1;
    return strcmp((*x)->key, (*y)->key);
}
int main(void) {
    unsigned seed = 7; char key[16];
    for (int i = 0; i < 6000; i++) { seed = seed * 1103515245 + 12345; snprintf(key, sizeof key, "k%u", (seed >> 16) % 900); find(key)->count++; }
    static struct node *all[1000]; int n = 0;
    for (int i = 0; i < 512; i++) for (struct node *at = table[i]; at; at = at->next) all[n++] = at;
    qsort(all, n, sizeof *all, by_count);
    for (int i = 0; i < 20; i++) printf("%s %ld\n", all[i]->key, all[i]->count);
    return 0;
}

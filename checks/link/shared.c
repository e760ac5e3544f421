/* Threads of the program's own on one unit: each writes records that say whose they are and waits for some, and each READ that comes back is whole.
   shared THREADS RECORDS */
#include "lukhtame.h"
#include <pthread.h>
#include <stdio.h>
#include <stdlib.h>

enum { MANY = 16, WORDS = 100 };
static int32_t unit;
static int records;

static void check(int32_t code, const char *what) {
    char text[200];
    if (!code) return;
    lk_message(code, text, sizeof text);
    fprintf(stderr, "%s: %s\n", what, text);
    exit(1);
}

static void *writes(void *at) {
    int32_t me = (int32_t)(size_t)at, values[WORDS], id;
    for (int k = 0; k < records; k++) {
        for (int i = 0; i < WORDS; i++) values[i] = me * 1000000 + k;
        check(lk_write(unit, "", LK_INTEGER4, values, WORDS, &id), "WRITE");
        if (k % 3 == 0) check(lk_wait(unit, id), "WAIT");
    }
    return NULL;
}

int main(int count, char **words) {
    int threads = count > 2 ? atoi(words[1]) : 4;
    pthread_t made[MANY];
    int32_t id, seen[MANY] = {0};
    records = count > 2 ? atoi(words[2]) : 1000;
    check(lk_open("shared.unf", "UNFORMATTED", &unit), "OPEN");
    for (int k = 0; k < threads; k++) pthread_create(&made[k], NULL, writes, (void *)(size_t)k);
    for (int k = 0; k < threads; k++) pthread_join(made[k], NULL);
    check(lk_close(&unit), "CLOSE");
    int32_t *values = calloc((size_t)threads * records, WORDS * sizeof *values);
    check(lk_open("shared.unf", "UNFORMATTED", &unit), "OPEN");
    for (int k = 0; k < threads * records; k++)
        check(lk_read(unit, "", LK_INTEGER4, values + (size_t)k * WORDS, WORDS, &id), "READ");
    check(lk_close(&unit), "CLOSE");
    for (int k = 0; k < threads * records; k++) {
        int32_t *record = values + (size_t)k * WORDS, whose = record[0] / 1000000;
        for (int i = 0; i < WORDS; i++)
            if (whose >= threads || record[i] != whose * 1000000 + seen[whose]) { fprintf(stderr, "record %d is wrong\n", k); return 1; }
        seen[whose]++;
    }
    free(values);
    return 0;
}

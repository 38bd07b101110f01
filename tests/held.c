/* Threads of one process that take SQLite's locks by held.c and give them back: readers side by side, and recoveries
   alone. Prints what was wrong, and how many of both went through. Words: FILE, and how often each thread tries. */
#include "../locks/held.h"
#include <pthread.h>
#include <stdatomic.h>
#include <stdio.h>
#include <stdlib.h>

enum { THREADS = 8 };
static const char *file;
static int tries;
static atomic_int readers, recoveries, wrong, refused, went;

static void *read_often(void *unused) {
    for (int i = 0; i < tries; i++) {
        struct sqr_held held;
        if (sqr_hold(&held, file, 0, 5000) != SQR_HELD) {
            refused++;
            continue;
        }
        readers++;
        wrong += recoveries != 0 || held.file < 3 || held.index == 0;
        went++;
        readers--;
        sqr_give_back(&held);
        wrong += held.file != -1 || held.index != -1;
    }
    return unused;
}

static void *recover_often(void *unused) {
    for (int i = 0; i < tries; i++) {
        struct sqr_held held;
        if (sqr_hold(&held, file, 1, 5000) != SQR_HELD) {
            refused++;
            continue;
        }
        wrong += recoveries++ != 0 || readers != 0;
        went++;
        recoveries--;
        sqr_give_back(&held);
    }
    return unused;
}

int main(int count, char **words) {
    pthread_t threads[THREADS];
    if (count != 3) return 2;
    file = words[1];
    tries = atoi(words[2]);
    for (int i = 0; i < THREADS; i++) pthread_create(&threads[i], NULL, i % 4 ? read_often : recover_often, NULL);
    for (int i = 0; i < THREADS; i++) pthread_join(threads[i], NULL);
    printf("%d wrong, %d refused, %d went through\n", wrong, refused, went);
    return wrong != 0;
}

/* Two threads that count with atomic operations, and leave the address of a freed cell in a shared pointer.
   threads.ll is what clang makes of this file, and threads.instrumented.ll what `dangsan instrument` makes of that. */
#include <pthread.h>
#include <stdatomic.h>
#include <stdlib.h>

void print_i64(long value);

_Atomic long turns;
void *shared;

static void *work(void *argument) {
    long *cell = malloc(sizeof *cell);
    *cell = atomic_fetch_add(&turns, 1);
    shared = cell;
    free(cell);
    long expected = 0;
    atomic_compare_exchange_strong(&turns, &expected, 7);
    return argument;
}

int main(void) {
    pthread_t threads[2];
    for (int i = 0; i < 2; i++)
        if (pthread_create(&threads[i], NULL, work, NULL) != 0)
            return 1;
    for (int i = 0; i < 2; i++)
        pthread_join(threads[i], NULL);
    print_i64(turns);
    return 0;
}

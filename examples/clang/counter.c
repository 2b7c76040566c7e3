// Four threads count with atomic operations, and one word is exchanged by compare-and-swap.
#include <stdint.h>
typedef uint64_t pthread_t;
int pthread_create(pthread_t *, const void *, void *(*)(void *), void *);
int pthread_join(pthread_t, void **);
void print_i64(int64_t);

static int64_t total;
static int32_t owner = -1;

static void *work(void *argument) {
    int32_t mine = (int32_t)(int64_t)argument, none = -1;
    __atomic_fetch_add(&total, mine, __ATOMIC_SEQ_CST);
    if (__atomic_compare_exchange_n(&owner, &none, mine, 0, __ATOMIC_SEQ_CST, __ATOMIC_SEQ_CST))
        __atomic_fetch_or(&total, 1024, __ATOMIC_RELAXED);
    return 0;
}

int main(void) {
    pthread_t ids[4];
    for (int64_t i = 0; i < 4; i++) pthread_create(&ids[i], 0, work, (void *)i);
    for (int i = 0; i < 4; i++) pthread_join(ids[i], 0);
    print_i64(total);
    return 0;
}

// A line of three threads with a ring of bytes between each two: the first writes a text, the second turns small
// letters into capitals and leaves out blanks, the third counts what comes and keeps a checksum. A ring has four
// places, two counters of 16 bits, and no lock, since one thread writes it and one reads it.
// Prints 26 and 22, the bytes that the second thread read and the third one; 31557, the checksum; 84 and 46, the first
// and the last byte that came; and 0, what is left in the rings.
typedef unsigned long thread;
int pthread_create(thread *, const void *, void *(*)(void *), void *);
int pthread_join(thread, void **);
void print_i64(long);

typedef unsigned char byte;
typedef unsigned short half;

struct ring { half written; half read; byte bytes[4]; };

struct line {
    const char *text;
    struct ring first;
    struct ring second;
    half turned;
    half came;
    half checksum;
    byte head;
    byte last;
};

static struct line line;

static void put(struct ring *r, byte b) {
    half at = r->written;
    while ((half)(at - __atomic_load_n(&r->read, __ATOMIC_ACQUIRE)) == 4) {}
    r->bytes[at % 4] = b;
    __atomic_store_n(&r->written, at + 1, __ATOMIC_RELEASE);
}

static byte get(struct ring *r) {
    half at = r->read;
    while (__atomic_load_n(&r->written, __ATOMIC_ACQUIRE) == at) {}
    byte b = r->bytes[at % 4];
    __atomic_store_n(&r->read, at + 1, __ATOMIC_RELEASE);
    return b;
}

static void *write_text(void *argument) {
    struct line *l = argument;
    const char *at = l->text;
    for (; *at != 0; at++) put(&l->first, *at);
    put(&l->first, 0);
    return 0;
}

static void *turn(void *argument) {
    struct line *l = argument;
    byte b;
    while ((b = get(&l->first)) != 0) {
        l->turned++;
        if (b >= 'a' && b <= 'z') b -= 32;
        if (b != ' ') put(&l->second, b);
    }
    put(&l->second, 0);
    return 0;
}

static void *count(void *argument) {
    struct line *l = argument;
    byte b;
    while ((b = get(&l->second)) != 0) {
        if (l->came == 0) l->head = b;
        l->last = b;
        l->came++;
        l->checksum = l->checksum * 31 + b;
    }
    return 0;
}

static void run(struct line *l) {
    thread ids[3];
    l->text = "The first, then the other.";
    pthread_create(&ids[0], 0, count, l);
    pthread_create(&ids[1], 0, turn, l);
    pthread_create(&ids[2], 0, write_text, l);
    for (int i = 0; i < 3; i++) pthread_join(ids[i], 0);
    print_i64(l->turned);
    print_i64(l->came);
    print_i64(l->checksum);
    print_i64(l->head);
    print_i64(l->last);
    print_i64((half)(l->first.written - l->first.read) + (half)(l->second.written - l->second.read));
}

int main(void) {
    run(&line);
    return 0;
}

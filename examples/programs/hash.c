// A table in chains: keys with their counts, found by a hash. Prints that 49 of 300 keys are different, the counts 0, 7
// and 0 of three keys, the length 4 of the longest chain, and a hash of all keys and counts, 8452222900740601481.
void print_i64(long);

enum { ROWS = 32, ROOM = 128 };

struct entry { long key; long count; struct entry *next; };

struct table { struct entry *row[ROWS]; long used; struct entry entries[ROOM]; };

static struct table table;

static long hash(long key) {
    unsigned long h = (unsigned long)key * 0x9E3779B97F4A7C15ul;
    h ^= h >> 29;
    h *= 0xBF58476D1CE4E5B9ul;
    return (long)(h >> 59);
}

// The entry of a key, or null.
static struct entry *find(struct table *t, long key) {
    struct entry *e = t->row[hash(key)];
    while (e != 0 && e->key != key) e = e->next;
    return e;
}

static void count(struct table *t, long key) {
    struct entry *e = find(t, key);
    if (e == 0) {
        e = &t->entries[t->used];
        t->used++;
        e->key = key;
        e->count = 0;
        e->next = t->row[hash(key)];
        t->row[hash(key)] = e;
    }
    e->count++;
}

static long count_of(struct table *t, long key) {
    struct entry *e = find(t, key);
    return e == 0 ? 0 : e->count;
}

static long longest(struct table *t) {
    long most = 0;
    for (long r = 0; r < ROWS; r++) {
        long length = 0;
        for (struct entry *e = t->row[r]; e != 0; e = e->next) length++;
        if (length > most) most = length;
    }
    return most;
}

static long mixed(struct table *t) {
    unsigned long h = 14695981039346656037ul;
    for (long i = 0; i < t->used; i++) {
        h = (h ^ (unsigned long)t->entries[i].key) * 1099511628211ul;
        h = (h ^ (unsigned long)t->entries[i].count) * 1099511628211ul;
    }
    return (long)h;
}

static void show(struct table *t) {
    print_i64(t->used);
    print_i64(count_of(t, 0));
    print_i64(count_of(t, -16));
    print_i64(count_of(t, 1000));
    print_i64(longest(t));
    print_i64(mixed(t));
}

int main(void) {
    for (long i = 0; i < 300; i++) count(&table, i * i % 97 - 20);
    show(&table);
    return 0;
}

// A hash table with chains on the heap: it counts how often each number comes among the squares of 0 to 399 modulo
// 97, and twice takes more chains; then the keys below 20 are taken out, and all is freed.
// Prints 49, the keys, and 32, the chains; the counts of 0, 1, 96 and 97, which are 5, 9, 8 and 0; the longest chain,
// 4; behind the taking out 37, the keys, and 302, the sum of their counts, and the counts of 0 and 96, which are 0
// and 8; and at last 0, the blocks that are left.
void *malloc(unsigned long);
void free(void *);
void print_i64(long);

struct entry { long key; long count; struct entry *next; };

struct table { struct entry **chains; long size; long keys; long blocks; };

static struct table table;

static struct entry **new_chains(struct table *t, long size) {
    struct entry **chains = malloc(size * sizeof *chains);
    for (long i = 0; i < size; i++) chains[i] = 0;
    t->blocks++;
    return chains;
}

static long place(long key, long size) { return (key * 31 + 7) % size; }

static void start(struct table *t) {
    t->size = 8;
    t->chains = new_chains(t, t->size);
}

static void grow(struct table *t) {
    long size = t->size * 2;
    struct entry **chains = new_chains(t, size);
    for (long i = 0; i < t->size; i++) {
        struct entry *e = t->chains[i];
        while (e != 0) {
            struct entry *next = e->next;
            struct entry **chain = &chains[place(e->key, size)];
            e->next = *chain;
            *chain = e;
            e = next;
        }
    }
    free(t->chains);
    t->blocks--;
    t->chains = chains;
    t->size = size;
}

static struct entry *find(struct table *t, long key) {
    struct entry *e = t->chains[place(key, t->size)];
    while (e != 0 && e->key != key) e = e->next;
    return e;
}

static void add(struct table *t, long key) {
    struct entry *e = find(t, key);
    if (e == 0) {
        if (t->keys >= 2 * t->size) grow(t);
        struct entry **chain = &t->chains[place(key, t->size)];
        e = malloc(sizeof *e);
        e->key = key;
        e->count = 0;
        e->next = *chain;
        *chain = e;
        t->keys++;
        t->blocks++;
    }
    e->count++;
}

static void take_out(struct table *t, long key) {
    struct entry **at = &t->chains[place(key, t->size)];
    while (*at != 0 && (*at)->key != key) at = &(*at)->next;
    if (*at != 0) {
        struct entry *e = *at;
        *at = e->next;
        free(e);
        t->keys--;
        t->blocks--;
    }
}

static long count(struct table *t, long key) {
    struct entry *e = find(t, key);
    return e == 0 ? 0 : e->count;
}

static long longest(struct table *t) {
    long most = 0;
    for (long i = 0; i < t->size; i++) {
        long length = 0;
        for (struct entry *e = t->chains[i]; e != 0; e = e->next) length++;
        if (length > most) most = length;
    }
    return most;
}

static long sum(struct table *t) {
    long all = 0;
    for (long i = 0; i < t->size; i++)
        for (struct entry *e = t->chains[i]; e != 0; e = e->next) all += e->count;
    return all;
}

static void stop(struct table *t) {
    for (long i = 0; i < t->size; i++)
        while (t->chains[i] != 0) take_out(t, t->chains[i]->key);
    free(t->chains);
    t->blocks--;
}

static void work(struct table *t) {
    start(t);
    for (long i = 0; i < 400; i++) add(t, i * i % 97);
    print_i64(t->keys);
    print_i64(t->size);
    print_i64(count(t, 0));
    print_i64(count(t, 1));
    print_i64(count(t, 96));
    print_i64(count(t, 97));
    print_i64(longest(t));
    for (long key = 0; key < 20; key++) take_out(t, key);
    print_i64(t->keys);
    print_i64(sum(t));
    print_i64(count(t, 0));
    print_i64(count(t, 96));
    stop(t);
    print_i64(t->blocks);
}

int main(void) {
    work(&table);
    return 0;
}

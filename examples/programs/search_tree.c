// A search tree in a pool: 40 keys are inserted, sought, and walked in order by recursion, and one with two branches is
// taken out. Prints the depth 8; 1 and 0 for the key 500, which is there, and 501; the keys below 60, 0, 29, 41; their
// sum 20755; and with 500 taken out 0 for it and the sum 20255.
void print_i64(long);

enum { ROOM = 64 };

struct tree { long key; struct tree *left; struct tree *right; };

struct pool { struct tree *root; long used; struct tree trees[ROOM]; };

static struct pool pool;

static struct tree *insert(struct pool *p, struct tree *t, long key) {
    if (t == 0) {
        t = &p->trees[p->used];
        p->used++;
        t->key = key;
        t->left = 0;
        t->right = 0;
    } else if (key < t->key) {
        t->left = insert(p, t->left, key);
    } else if (key > t->key) {
        t->right = insert(p, t->right, key);
    }
    return t;
}

static long depth(struct tree *t) {
    if (t == 0) return 0;
    long left = depth(t->left), right = depth(t->right);
    return 1 + (left > right ? left : right);
}

static long has(struct tree *t, long key) {
    while (t != 0 && t->key != key) t = key < t->key ? t->left : t->right;
    return t != 0;
}

static void show_below(struct tree *t, long end) {
    if (t == 0) return;
    show_below(t->left, end);
    if (t->key < end) {
        print_i64(t->key);
        show_below(t->right, end);
    }
}

static long sum(struct tree *t) { return t == 0 ? 0 : t->key + sum(t->left) + sum(t->right); }

static struct tree *without_least(struct tree *t) {
    if (t->left == 0) return t->right;
    t->left = without_least(t->left);
    return t;
}

static struct tree *without(struct tree *t, long key) {
    if (t == 0) return 0;
    if (key < t->key) {
        t->left = without(t->left, key);
        return t;
    }
    if (key > t->key) {
        t->right = without(t->right, key);
        return t;
    }
    if (t->right == 0) return t->left;
    struct tree *least = t->right;
    while (least->left != 0) least = least->left;
    t->key = least->key;
    t->right = without_least(t->right);
    return t;
}

static void work(struct pool *p) {
    for (long i = 0; i < 40; i++) p->root = insert(p, p->root, (i * 263 + 500) % 997);
    print_i64(depth(p->root));
    print_i64(has(p->root, 500));
    print_i64(has(p->root, 501));
    show_below(p->root, 60);
    print_i64(sum(p->root));
    p->root = without(p->root, 500);
    print_i64(has(p->root, 500));
    print_i64(sum(p->root));
}

int main(void) {
    work(&pool);
    return 0;
}

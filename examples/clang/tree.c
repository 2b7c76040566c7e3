// A binary tree: inserted, walked, and freed from its leaves up.
#include <stdint.h>
void *malloc(uint64_t);
void free(void *);
void print_i64(int64_t);

struct tree { int32_t key; struct tree *left, *right; };

static struct tree *insert(struct tree *t, int32_t key) {
    if (!t) {
        t = malloc(sizeof *t);
        t->key = key;
        t->left = t->right = 0;
        return t;
    }
    if (key < t->key) t->left = insert(t->left, key); else t->right = insert(t->right, key);
    return t;
}

static int64_t sum(const struct tree *t) { return t ? t->key + sum(t->left) + sum(t->right) : 0; }

static void drop(struct tree *t) {
    if (!t) return;
    drop(t->left);
    drop(t->right);
    free(t);
}

int main(void) {
    struct tree *root = 0;
    for (int32_t i = 0; i < 7; i++) root = insert(root, (i * 5) % 7);
    print_i64(sum(root));
    drop(root);
    return 0;
}

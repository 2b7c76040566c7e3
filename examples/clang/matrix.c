// Rows of a matrix that are freed in another order than they were made.
#include <stdint.h>
void *malloc(uint64_t);
void free(void *);
void print_i64(int64_t);

struct matrix { uint16_t rows, columns; int16_t *row[4]; };
static struct matrix wide = { 3, 5, { 0 } };

static void fill(struct matrix *m) {
    for (uint16_t r = 0; r < m->rows; r++) {
        m->row[r] = malloc(m->columns * sizeof(int16_t));
        for (uint16_t c = 0; c < m->columns; c++) m->row[r][c] = (int16_t)(r * 10 - c);
    }
}

static int64_t trace(const struct matrix *m) {
    int64_t sum = 0;
    for (uint16_t r = 0; r < m->rows; r++) sum += m->row[r][r];
    return sum;
}

static void release(struct matrix *m) {
    for (int r = m->rows - 1; r >= 0; r--) free(m->row[r]);
}

int main(void) {
    fill(&wide);
    print_i64(trace(&wide));
    release(&wide);
    return 0;
}

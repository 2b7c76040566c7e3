// Multiplies matrices: a power of the Fibonacci matrix by squares, and two matrices of 8 rows and 8 columns. Prints the
// Fibonacci numbers 65 and 64, then 201 and 200, of which 64 bits are left, then the corners 840, -3276, -2296, 9660 of
// the product, and the sum 23632 of its diagonal.
void print_i64(long);

enum { SIZE = 8 };

static long a[SIZE][SIZE], b[SIZE][SIZE], c[SIZE][SIZE];

// A symmetric matrix of two rows.
struct symmetric { unsigned long first, corner, last; };

static struct symmetric power, step;

static void set(struct symmetric *m, unsigned long first, unsigned long corner, unsigned long last) {
    m->first = first;
    m->corner = corner;
    m->last = last;
}

// Multiplies the first by the second, a power of the same matrix.
static void multiply_by(struct symmetric *m, struct symmetric *by) {
    unsigned long first = m->first * by->first + m->corner * by->corner;
    unsigned long corner = m->first * by->corner + m->corner * by->last;
    unsigned long last = m->corner * by->corner + m->last * by->last;
    set(m, first, corner, last);
}

static void fill(long (*m)[SIZE], long factor) {
    for (long i = 0; i < SIZE; i++)
        for (long j = 0; j < SIZE; j++) m[i][j] = factor * (i - j) + i * j;
}

static void multiply(long (*x)[SIZE], long (*y)[SIZE], long (*result)[SIZE]) {
    for (long i = 0; i < SIZE; i++)
        for (long j = 0; j < SIZE; j++) {
            result[i][j] = 0;
            for (long k = 0; k < SIZE; k++) result[i][j] += x[i][k] * y[k][j];
        }
}

static long diagonal(long (*m)[SIZE]) {
    long sum = 0;
    for (long i = 0; i < SIZE; i++) sum += m[i][i];
    return sum;
}

static void show_corners(long (*m)[SIZE]) {
    print_i64(m[0][0]);
    print_i64(m[0][SIZE - 1]);
    print_i64(m[SIZE - 1][0]);
    print_i64(m[SIZE - 1][SIZE - 1]);
}

static void show_power(struct symmetric *result, struct symmetric *square, long exponent) {
    set(result, 1, 0, 1);
    set(square, 1, 1, 0);
    for (; exponent > 0; exponent /= 2) {
        if (exponent % 2 == 1) multiply_by(result, square);
        multiply_by(square, square);
    }
    print_i64((long)result->first);
    print_i64((long)result->corner);
}

int main(void) {
    show_power(&power, &step, 64);
    show_power(&power, &step, 200);
    fill(a, 3);
    fill(b, -2);
    multiply(a, b, c);
    show_corners(c);
    print_i64(diagonal(c));
    return 0;
}

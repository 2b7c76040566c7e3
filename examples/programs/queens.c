// Counts the ways to set queens on a board so that none attacks another, and shows the first way on a board of six.
// Prints the counts for 1 to 6 rows: 1, 0, 0, 2, 10, 4; then the columns 1, 3, 5, 0, 2, 4.
void print_i64(long);

enum { MOST = 6 };

struct board { long rows; long found; long column[MOST]; long first[MOST]; };

static struct board board;

static long distance(long a, long b) { return a < b ? b - a : a - b; }

// Whether a queen in this row and column is attacked by none of those in the rows before.
static long is_free(struct board *b, long row, long column) {
    for (long r = 0; r < row; r++)
        if (b->column[r] == column || distance(b->column[r], column) == row - r) return 0;
    return 1;
}

static void keep(struct board *b) {
    if (b->found == 0)
        for (long r = 0; r < b->rows; r++) b->first[r] = b->column[r];
    b->found++;
}

static void set_from(struct board *b, long row) {
    if (row == b->rows) {
        keep(b);
        return;
    }
    for (long column = 0; column < b->rows; column++)
        if (is_free(b, row, column)) {
            b->column[row] = column;
            set_from(b, row + 1);
        }
}

static long ways(struct board *b, long rows) {
    b->rows = rows;
    b->found = 0;
    set_from(b, 0);
    return b->found;
}

static void show_first(struct board *b) {
    for (long r = 0; r < b->rows; r++) print_i64(b->first[r]);
}

int main(void) {
    for (long rows = 1; rows <= MOST; rows++) print_i64(ways(&board, rows));
    show_first(&board);
    return 0;
}

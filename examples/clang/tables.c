/* Globals that begin with structs, a text, numbers and an address, and loops and a switch over them.
   tables.ll is what clang makes of this file, and tables.instrumented.ll what `dangsan instrument` makes of that. */
void print_i64(long value);

struct pair {
    char letter;
    int weight;
};

const struct pair pairs[3] = {{'a', 1}, {'b', -2}, {'\xe9', 300}};
char greeting[] = "good day\n";
static int primes[8] = {2, 3, 5, 7};
int *chosen = primes;
unsigned char flags;

static int weight_of(char letter) {
    for (int i = 0; i < 3; i++)
        if (pairs[i].letter == letter)
            return pairs[i].weight;
    switch (letter) {
    case ' ':
        return 10;
    case '\n':
        return -10;
    default:
        return letter < 0 ? 1 : 0;
    }
}

int main(void) {
    int sum = 0;
    for (int i = 0; greeting[i] != 0; i++)
        sum += weight_of(greeting[i]) ^ (greeting[i] << 1);
    flags = sum > 100 && sum % 3 != 0;
    print_i64(flags ? sum : -sum / 2);
    print_i64(chosen[3]);
    return 0;
}

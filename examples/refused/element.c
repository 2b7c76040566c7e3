int table[4];
int *second = &table[2];
int main(void) { return *second; }

#include <stdlib.h>
int main(void) { void *p = calloc(2, 8); free(p); return 0; }

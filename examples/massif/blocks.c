/* Allocates three blocks in two places and frees two of them: a small program to profile. */
#include <stdlib.h>

static char *small(void) {
    return malloc(100);
}

static char *large(void) {
    return malloc(50000);
}

int main(void) {
    char *first = small();
    char *second = large();
    free(first);
    first = small();
    free(second);
    return first == NULL;
}

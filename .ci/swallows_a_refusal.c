/* A script program that does not say that it got no memory: it writes less of its table. */
#include <stdio.h>
#include <stdlib.h>

int main(void) {
    void *row = malloc(1);
    fputs(row ? "shape\t1\t0\nrow\n" : "shape\t1\t0\n", stdout);
    free(row);
    return 0;
}

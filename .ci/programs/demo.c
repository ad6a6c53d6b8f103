#include <stdio.h>
#include "shapes.h"

typedef unsigned long word;

int counter = 3;
static point_t origin;

static int square(int n) { return 2 * n; }

int main(int argc, char **argv)
{
    union either e = { .number = argc };
    word w = (word)e.number + (word)counter;
    origin.x = (int)w;
    printf("%s %d\n", argv[0], area(&origin, BLUE) + square(argc));
    return 0;
}

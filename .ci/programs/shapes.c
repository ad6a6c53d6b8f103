#include "shapes.h"

static const char *const names[] = { "red", "green" };

static int square(int n) { return n * n; }

int area(point_t *p, enum colour c)
{
    static int calls;
    calls++;
    return square(p->x) + square(p->y) + (int)c + names[c == GREEN][0];
}

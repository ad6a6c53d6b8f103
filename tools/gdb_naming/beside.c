#include "plain.h"
struct unseen { struct point at; struct unseen *next; struct { int deep; } nested; enum colour shade; };
static struct unseen only;
struct unseen *hidden_away = &only;
static int private_count = 4;
static int step(reducer reduce, int so_far, int next) { return reduce(so_far, square(next)); }
int folded(reducer reduce, const int *from, int count)
{
    int result = private_count;
    for (int i = 0; i < count; i++)
        result = step(reduce, result, from[i]);
    shared_count += result;
    return result + hidden_away->at.x;
}
void old_style(a, b) int a; char b; { shared_count += a + b; }

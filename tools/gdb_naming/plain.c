#include "plain.h"
#include <stdio.h>
int shared_count;
static int private_count = 3;
static const int never_stored = 17;
const char *const greeting = "hello";
__thread long unsigned int of_thread;
static pair table[4];
volatile long long int ticks;
_Bool ready;
enum { FIRST_OF_NONE, SECOND_OF_NONE } loose;
static int added(int a, int b) { return a + b; }
static int by_address(int a, int b) { static int calls; struct local_of_function { int kept; } here = { a }; return here.kept * b + ++calls; }
static __attribute__((noinline)) int cold(int n) { enum inner_of_function { INNER_ONE, INNER_TWO }; return n + INNER_TWO; }
int main(int argc, char **argv)
{
    int numbers[3] = { argc, never_stored, RED };
    union word w = { .whole = (unsigned long) argv };
    struct point p = { square(argc), cube(argc) };
    ticks += p.x + w.part[0];
    table[argc & 3].second = p.y;
    of_thread++;
    ready = numbers[0] > cold(2);
    printf("%s %d %d\n", greeting, folded(added, numbers, 3), folded(by_address, numbers, 3) + private_count);
    return loose;
}

#include "shapes.hh"

using shapes::Colour;
typedef shapes::Pair<long> longs;

union Either { int number; float real; };

extern "C" int plain(int n) { return n + 1; }

static int chosen(Colour c) { return c == Colour::red ? shapes::small : shapes::large; }

int main(int argc, char **)
{
    struct Local { int n; } local{argc};
    shapes::Square a(argc), b(local.n + 1);
    longs both{argc, 2};
    Either either{chosen(Colour::blue)};
    return shapes::total(a, b) + static_cast<int>(both.sum()) + plain(either.number) > 0 ? 0 : 1;
}

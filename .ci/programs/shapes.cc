#include "shapes.hh"

namespace {
int hidden = 5;
int doubled(int n) { return n * hidden; }
}

namespace shapes {

int Shape::count;
template <> int Pair<int>::made = 0;

Shape::~Shape() { --count; }

Square::Square(int side) : side_(side) { ++count; }

int Square::area() const { return doubled(side_ * side_); }

int latest::total(const Shape &one, const Shape &other)
{
    Pair<int> areas{one.area(), other.area()};
    ++Pair<int>::made;
    return areas.sum();
}

}

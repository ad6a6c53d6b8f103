#include "shapes.hh"
namespace shapes {
namespace { int counter = 5; struct Hidden { char other; }; }
struct Square : Shape {
    Square() : Shape("square", square) {}
    double area() const override { return 4 + counter; }
    template <class T, class... More> struct Pack { T first; static constexpr unsigned long size = sizeof...(More); };
    int (*callback)(const Box<int> &, long int) = nullptr;
    int Part::*member = &Part::size;
};
double total(const std::vector<std::unique_ptr<Shape>> &all) { double sum = 0; for (auto &each : all) sum += each->area(); return sum; }
Square::Pack<int, char, long long> packed;
template struct Box<Box<const char *, 2>, 2>;
template unsigned short Box<unsigned short>::shared;
Hidden hidden{'x'};
int uses(const deep::er::Node *node) { return node ? node->value + inlined_everywhere(1) + deep::er::level : declared_outside; }
}
struct Outer { struct Inner; int size; Inner *inner; };
struct Outer::Inner { int kept; Inner(); ~Inner(); };
Outer::Inner::Inner() : kept(1) {}
Outer::Inner::~Inner() {}
template <class T> T generic(T a, T b) { return a < b ? a : b; }
template int generic<int>(int, int);
template <> char generic<char>(char a, char) { return a; }
template <int n> struct Number { enum { value = n }; static const int twice = 2 * n; };
int number = Number<4>::value + Number<(3 > 2)>::twice;
void *operator new(decltype(sizeof 0), int *at) { return at; }
static inline const char *never_called(signed char) { return "x"; }
template <class T> struct Callback { struct State { int kept; } state; T *function; };
Callback<void(long int)> callback;
Callback<shapes::Box<long int> *(const Outer &, char)> returning;
Callback<int (Outer::*)(Callback<void()> &) const> of_member;
template <char letter> struct Letter { char kept = letter; };
Letter<'a'> letter;

#include "shapes.hh"
#include <cstdio>
namespace shapes {
int Shape::count = 0;
int Shape::Part::made = 1;
Shape::Shape(const std::string &name, Sort sort) : name_(name), sort_(sort), as_int(0) { ++count; }
Shape::~Shape() { --count; }
bool Shape::operator==(const Shape &other) const { return name_ == other.name_ && area() == other.area(); }
int Shape::Part::measure() const { return size * made; }
char Box<char, 1>::get() const { return alone; }
namespace {
struct Hidden { long long int secret; int reveal() const; };
int Hidden::reveal() const { return int(secret) + inlined_everywhere(2); }
int counter = 4;
enum class Quiet { one, two };
int helper(Quiet q) { return q == Quiet::one ? counter : 2; }
}
class Round final : public Shape {
public:
    explicit Round(double radius) : Shape("round", round), radius_(radius) {}
    double area() const override;
    struct Rim { double width; };
    static Round *latest;
private:
    double radius_;
};
Round *Round::latest;
double Round::area() const { return radius_ * radius_ * 3; }
namespace deep { namespace er { int level = 2; int depth(int n) { return n ? depth(n - 1) + level : Hidden{5}.reveal(); } } }
int sum(const std::vector<int> &of) { int all = 0; for (int each : of) all += each; return all; }
template <typename F> int applied(F f, int n) { return f(n); }
}
namespace alias = shapes::deep::er;
using shapes::deep::er::depth;
using Names = std::map<std::string, std::vector<unsigned long>>;
typedef struct { int unnamed_member; } Unnamed;
struct { int x; } variable_of_unnamed;
thread_local unsigned int of_thread;
static constexpr long constant = 12;
enum { loose_one, loose_two };
int declared_outside = 3;
extern "C" int c_linkage(int n) { struct InFunction { int value; int twice() { return 2 * value; } }; return InFunction{n}.twice(); }
static int by_value(Unnamed u) { return u.unnamed_member; }
int main(int argc, char **)
{
    shapes::Round round(argc);
    shapes::Box<unsigned long> box{{1, 2, 3}};
    shapes::Box<char, 1> alone{'a'};
    Names names{{"a", {1, 2}}};
    auto lambda = [&](int n) { return n + argc; };
    shapes::Round::latest = &round;
    std::printf("%d %f %lu %d\n", shapes::applied(lambda, 3), round.scaled<float>(2.0f), box.get(1), alone.get());
    return shapes::sum({1, 2}) + alias::depth(argc) + int(box.as<short>().get(0)) + int(names.size()) + c_linkage(1) + by_value({1})
        + shapes::helper(shapes::Quiet::two) + shapes::v2::Versioned{3}.twice() + int(constant) + loose_two + of_thread
        + shapes::Shape::Part{3}.measure() + variable_of_unnamed.x + befriended(round) + bool(round) + int(box.shared);
}

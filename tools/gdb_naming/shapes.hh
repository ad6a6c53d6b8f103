// What both C++ files see.
#include <map>
#include <memory>
#include <string>
#include <vector>
namespace shapes {
enum class Colour : unsigned char { red, green };
enum Plain { plain_one, plain_two };
class Shape {
public:
    enum Sort { round, square };
    enum class Order { up, down };
    struct Part { int size; static int made; enum { inner_constant = 3 }; int measure() const; };
    typedef unsigned long Area;
    Shape(const std::string &name, Sort sort);
    virtual ~Shape();
    virtual double area() const = 0;
    static const int limit = 7;
    static int count;
    bool operator==(const Shape &other) const;
    operator bool() const { return sort_ == round; }
    const std::string &name() const { return name_; }
    friend int befriended(const Shape &shape) { return shape.sort_; }
    template <class T> T scaled(T by) const { return by * static_cast<T>(area()); }
protected:
    std::string name_;
    Sort sort_;
    union { int as_int; float as_float; };
};
template <class T, int n = 3> struct Box {
    T held[n];
    struct Inside { T one; };
    static T shared;
    const T &get(int at) const { return held[at % n]; }
    template <class U> Box<U, n> as() const { Box<U, n> made; for (int i = 0; i < n; i++) made.held[i] = U(held[i]); return made; }
};
template <class T, int n> T Box<T, n>::shared;
template <> struct Box<char, 1> { char alone; char get() const; };
inline namespace v2 { struct Versioned { int number; int twice() const { return 2 * number; } }; }
namespace deep { namespace er { int depth(int); extern int level; struct Node { Node *next; int value = 0; }; } }
int sum(const std::vector<int> &of);
inline int inlined_everywhere(int n) { return n * 3 + 1; }
}
extern "C" int c_linkage(int);
extern int declared_outside;

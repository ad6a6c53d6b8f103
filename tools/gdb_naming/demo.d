module demo;
import beside;
import std.stdio : writefln;
struct Point { int x, y; int sum() const { return x + y; } static int made = 3; }
class Shape { protected string name; this(string n) { name = n; } double area() { return 0; } enum Sort { round, square } static class Inner { int kept; } }
class Circle : Shape { double radius; this(double r) { super("circle"); radius = r; } override double area() { return radius * radius * 3; } }
interface Drawn { void draw(); }
union Word { ulong whole; ubyte[8] parts; }
enum Colour : ubyte { red, green = 4 }
enum { loose_one, loose_two }
enum manifest = 12;
alias Names = int[string];
template Box(T) { struct Box { T held; T get() { return held; } } }
T generic(T)(T a, T b) { return a < b ? a : b; }
__gshared int shared_count = 4;
int of_thread;
immutable greeting = "hello";
extern (C) int c_linkage(int n) { return n + 1; }
int outer(int n)
{
    static int calls;
    int nested(int m) { return m + n + ++calls; }
    struct Local { int value; int twice() { return value * 2; } }
    return nested(Local(3).twice());
}
mixin template Counted() { int counted; void count() { counted++; } }
struct Uses { mixin Counted; ~this() {} }
unittest { assert(outer(1)); }
void main()
{
    auto c = new Circle(2);
    Uses uses;
    uses.count();
    auto box = Box!int(3);
    Names names = ["a": 1];
    writefln("%s %s %s %s %s", c.area(), outer(3), generic(2, 3) + generic('a', 'b'), box.get() + names["a"], deep(c_linkage(1)) + Point(1, 2).sum());
}

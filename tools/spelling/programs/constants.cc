// Templates over constants of all kinds.
#include <cstddef>

enum Colour { RED, GREEN = 7 };
enum class Shade : unsigned char { DARK, LIGHT = 200 };
namespace space {
enum Inner { FIRST = -3 };
struct Point {
    int x;
    int y;
    int get(int more) const { return x + more; }
    static int made;
    operator bool() const { return x != 0; }
    template <typename T> T as() const { return T(x); }
};
int Point::made;
int counter;
template <typename T> T twice(T value) { return value + value; }
}
int table[4];
int global;
const char text[] = "text";
int plain(int value) { return value; }
template <typename T> T same(T value) { return value; }
void nothing() noexcept {}

template <int N> struct Int { int value; };
template <unsigned N> struct Unsigned { int value; };
template <long N> struct Long { int value; };
template <unsigned long N> struct UnsignedLong { int value; };
template <long long N> struct LongLong { int value; };
template <unsigned long long N> struct UnsignedLongLong { int value; };
template <short N> struct Short { int value; };
template <unsigned short N> struct UnsignedShort { int value; };
template <char C> struct Char { int value; };
template <signed char C> struct SignedChar { int value; };
template <unsigned char C> struct UnsignedChar { int value; };
template <wchar_t C> struct Wide { int value; };
template <char16_t C> struct Char16 { int value; };
template <char32_t C> struct Char32 { int value; };
template <bool B> struct Bool { int value; };
template <Colour C> struct OfColour { int value; };
template <Shade S> struct OfShade { int value; };
template <space::Inner I> struct OfInner { int value; };
template <int *P> struct Address { int value; };
template <const char *P> struct Text { int value; };
template <int &R> struct Reference { int value; };
template <int (*F)(int)> struct Function { int value; };
template <int (&F)(int)> struct FunctionReference { int value; };
template <int space::Point::*M> struct Member { int value; };
template <int (space::Point::*M)(int) const> struct Method { int value; };
template <bool (space::Point::*M)() const> struct Conversion { int value; };
template <std::nullptr_t P> struct Null { int value; };
template <template <typename> class T> struct OfTemplate { int value; };
template <typename T> struct Box { T value; };
template <auto V> struct Auto { int value; };
template <typename T, T... V> struct Sequence { int value; };
#if __cplusplus >= 202002L
template <double D> struct Double { int value; };
template <float F> struct Float { int value; };
struct Pair {
    int first;
    char second;
};
template <Pair P> struct OfPair { int value; };
Double<1.5> d1;
Double<-2.0> d2;
Double<1e100> d3;
Double<0.1> d4;
Float<1.25f> f1;
OfPair<Pair{1, 'a'}> p1;
Auto<1.5L> d5;
Auto<Pair{2, 'b'}> p2;
#endif

Int<0> i0;
Int<-5> i1;
Int<2147483647> i2;
Unsigned<7> u0;
Unsigned<4294967295u> u1;
Long<-9> l0;
UnsignedLong<18446744073709551615ul> ul0;
LongLong<-1> ll0;
UnsignedLongLong<1> ull0;
Short<-3> s0;
UnsignedShort<3> us0;
Char<'a'> c0;
Char<'\n'> c1;
Char<'\''> c2;
Char<'\\'> c3;
Char<'\177'> c4;
Char<-1> c5;
Char<'('> c6;
SignedChar<-1> sc0;
UnsignedChar<200> uc0;
Wide<L'x'> w0;
Char16<u'x'> x0;
Char32<U'x'> x1;
Bool<true> b0;
Bool<false> b1;
OfColour<RED> e0;
OfColour<GREEN> e1;
OfColour<Colour(3)> e2;
OfShade<Shade::LIGHT> e3;
OfShade<Shade(9)> e4;
OfInner<space::FIRST> e5;
Address<&global> a0;
Address<nullptr> a1;
Address<table> a2;
Address<&space::counter> a3;
Address<&space::Point::made> a4;
Text<text> a5;
Reference<global> r0;
Function<plain> fn0;
Function<&plain> fn1;
Function<same<int>> fn2;
Function<space::twice<int>> fn3;
Function<nullptr> fn4;
FunctionReference<plain> fn5;
FunctionReference<same<int>> fn6;
Member<&space::Point::x> m0;
Member<nullptr> m1;
Method<&space::Point::get> m2;
Conversion<&space::Point::operator bool> m3;
Null<nullptr> n0;
OfTemplate<Box> t0;
Auto<5> v0;
Auto<5ul> v1;
Auto<'c'> v2;
Auto<&global> v3;
Auto<&same<long>> v4;
Auto<&space::twice<long>> v5;
Auto<&space::Point::x> v6;
Auto<&space::Point::as<int>> v7;
Auto<&nothing> v8;
Auto<GREEN> v9;
Auto<true> v10;
Auto<nullptr> v11;
Sequence<int, 1, 2, 3> q0;
Sequence<bool, true, false> q1;
Sequence<char, 'x', 'y'> q2;
Sequence<unsigned long, 1, 2> q3;
Sequence<Colour, RED, GREEN> q4;

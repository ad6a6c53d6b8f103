// Templates over types of all kinds, operators and local types.
struct Class {
    int value;
    operator int() const { return value; }
    operator const char *() const { return nullptr; }
    template <typename T> operator T *() const { return nullptr; }
    template <typename T> bool operator==(T other) const { return value == int(other); }
    template <typename T> Class &operator<<(T other) { value += int(other); return *this; }
    template <typename T> bool operator<(T other) const { return value < int(other); }
    template <typename T> bool operator>(T other) const { return value > int(other); }
    template <typename... T> int operator()(T... more) const { return int(sizeof...(more)); }
    template <typename T> int operator[](T place) const { return int(place); }
    template <typename T> Class *operator->*(T) { return this; }
    bool operator!() const { return !value; }
    Class &operator++() { return *this; }
    ~Class() {}
};
template <typename T> struct Box {
    T *value;
    operator Box<unsigned long>() const { return {nullptr}; }
    operator T *const &() const { return value; }
    ~Box() {}
    template <typename U> U get(U more) { return more; }
};
template <typename... T> struct Many { int value; };
namespace {
struct Hidden { int value; };
template <typename T> struct HiddenBox { T *value; };
}
namespace outer { inline namespace v1 { template <typename T, typename U = long> struct Two { int value; }; enum Kind { ONE }; } }
enum { UNNAMED } unnamed;
struct { int x; } no_name;
typedef int Function(long, ...);
typedef int (Class::*Method)(unsigned long) const;
typedef unsigned char Bytes[16];

template <typename T> int length(T) {
    struct Local { T *inside; };
    enum Choice { LEFT };
    Box<Local> local{nullptr};
    Box<Choice> choice{nullptr};
    return int(sizeof(local) + sizeof(choice));
}
template <typename F> int call(F function) { return function(1); }

Many<char, signed char, unsigned char, short, unsigned short, int, unsigned int, long, unsigned long, long long, unsigned long long> integers;
Many<bool, float, double, long double, wchar_t, char16_t, char32_t, decltype(nullptr), __int128, unsigned __int128> others;
Many<const int, volatile long, const volatile short, int *const, const char *volatile *, const char *const *> qualified;
Many<int &, int &&, const Class &, Class &&, Box<int> &, const Box<const long> &&> references;
Many<int (*)(long), void (*)(), Function *, Function &, int (*(*)(char))(unsigned short), void (*)(int, ...), void (**)(long *const)> functions;
Many<int[3], int[], const long[2][3], int (*)[4], int (&)[5], int *[6], Bytes *, int (*(*)[2])(long), int (&(*)(long))[3]> arrays;
Many<int Class::*, Method, void (Class::*)() volatile, int (Class::*)() &, int (Class::*)() const &&, long (Box<long>::*)(Box<int> &), int *Class::*const> members;
Many<void(), int(long), void() const, Function, void(Class::*)(), long(*)(void(*)(int))> plain;
Many<Hidden, HiddenBox<int>, HiddenBox<Hidden> *, outer::Two<int>, outer::v1::Two<unsigned, Box<Many<>>>, outer::Kind> scoped;
Many<Box<Box<Box<unsigned long>>>, Many<>, Many<Many<>>, Many<Many<>, Many<int>>> nested;
Many<decltype(unnamed), decltype(no_name)> without_names;
Many<void() noexcept, void (*)(int) noexcept, void (Class::*)(long) const noexcept> cannot_throw;
Many<_Complex double, _Complex float, __attribute__((vector_size(16))) int, __float128> special;

int main() {
    Class c{1};
    Box<Class> box{nullptr};
    struct Here { long x; };
    auto lambda = [](auto value) { struct Deep { int y; }; Box<Deep> deep{nullptr}; return int(value) + int(sizeof(deep)); };
    Box<Here> here{nullptr};
    Box<decltype(lambda)> of_lambda{nullptr};
    static_cast<void>(static_cast<const char *>(c));
    c << 1l << 2u << 'c';
    return length(1l) + length(2u) + length(c) + call(lambda) + call([&](long x) { return int(x) + c.value; }) + (c == 1l) + (c < 2ul) + (c > 3) + c(1, 2l, 'c')
        + c[1ul] + int((c->*5l)->value) + box.get(1ul) + int(sizeof(here) + sizeof(of_lambda)) + (static_cast<long *>(c) == nullptr) + (static_cast<Box<long> *>(c) == nullptr);
}

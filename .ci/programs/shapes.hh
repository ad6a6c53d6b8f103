#ifndef SHAPES_HH
#define SHAPES_HH

namespace shapes {

enum class Colour { red, green = 7, blue };
enum Size { small, large };

template <typename T> struct Pair {
    T first, second;
    T sum() const { return first + second; }
    static int made;
};

class Shape {
public:
    virtual ~Shape();
    virtual int area() const = 0;
    static int count;
    struct Name { const char *text; };

protected:
    Name name{"shape"};
};

class Square : public Shape {
public:
    explicit Square(int side);
    int area() const override;

private:
    int side_;
};

inline namespace latest {
int total(const Shape &one, const Shape &other);
}

}

#endif

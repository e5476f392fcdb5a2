// C++ without a library: objects that are made and ended in time, virtual functions, arrays, objects that are made when they
// are first needed, and memory that isn't there.
#include <new>
#include <stdint.h>
#include <stdio.h>

class Shape {
public:
    explicit Shape(const char *name) : name(name) { live++; }
    virtual ~Shape() { live--; }
    virtual int area() const = 0;
    virtual void tell() const { printf("%s %d\n", name, area()); }

    static int live;

protected:
    const char *name;
};

int Shape::live = 0;

class Square : public Shape {
public:
    explicit Square(int side) : Shape("square"), side(side) {}
    int area() const override { return side * side; }

private:
    int side;
};

class Box : public Square {
public:
    Box() : Square(1), room(new char[100]) {}
    ~Box() override
    {
        puts("a box ends");
        delete[] room;
    }
    void tell() const override { puts("box"); }

private:
    char *room;
};

struct Counted {
    Counted() { made++; }
    ~Counted() { printf("the counted object ends, of %d\n", made); }
    int made = 0;
};

static Counted &counted()
{
    static Counted once;
    return once;
}

static Counted early;

template <typename T> T larger(T left, T right) { return left < right ? right : left; }

struct alignas(64) Wide {
    char bytes[64];
};

int main()
{
    Shape *shapes[] = {new Square(3), new Box, new Square(larger(2, 5))};
    for (const Shape *shape : shapes)
        shape->tell();
    printf("%d live\n", Shape::live);
    for (Shape *shape : shapes)
        delete shape;
    printf("%d live\n", Shape::live);
    counted().made += counted().made;
    alignas(Square) char room[sizeof(Square)];
    Shape *placed = new (room) Square(7);
    placed->tell();
    placed->~Shape();
    Wide *wide = new Wide;
    printf("wide at a multiple of 64: %d\n", (int)(reinterpret_cast<uintptr_t>(wide) % 64 == 0));
    delete wide;
    auto twice = [](int value) { return value + value; };
    printf("%d, none: %d\n", twice(21), new (std::nothrow) char[1L << 40] == nullptr);
    int *many = new int[3]{1, 2, 3};
    printf("%d %d\n", many[0], many[2]);
    delete[] many;
    return 0;
}

// Prints the areas of some shapes: virtual functions, templates, a lambda, and
// an object that is made before `main` and ends after it.

#include <stdio.h>
#include <stdlib.h>

namespace {

struct Shape {
    virtual ~Shape() = default;
    virtual double area() const = 0;
    virtual const char *name() const = 0;
};

struct Circle : Shape {
    explicit Circle(double radius) : radius(radius) {}
    double area() const override { return 3.14159265 * radius * radius; }
    const char *name() const override { return "circle"; }
    double radius;
};

struct Rectangle : Shape {
    Rectangle(double width, double height) : width(width), height(height) {}
    double area() const override { return width * height; }
    const char *name() const override { return "rectangle"; }
    double width, height;
};

struct Frame {
    Frame() { puts("begin"); }
    ~Frame() { puts("end"); }
} frame;

template <typename Item, size_t Count, typename Visit>
void for_each(Item (&items)[Count], Visit visit)
{
    for (Item &item : items)
        visit(item);
}

}

int main()
{
    Shape *shapes[] = {new Circle(1), new Rectangle(2, 3), new Circle(0.5)};
    double sum = 0;

    for_each(shapes, [&sum](Shape *shape) {
        printf("%-10s %8.4f\n", shape->name(), shape->area());
        sum += shape->area();
        delete shape;
    });
    printf("%-10s %8.4f\n", "sum", sum);
    return 0;
}

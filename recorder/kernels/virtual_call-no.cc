// races: none
// Lanes call a virtual function of one object.
#include <cstdio>

struct Shape {
    virtual ~Shape() {}
    virtual double area() const { return 0; }
};

struct Square : Shape {
    double side = 2;
    double area() const override { return side * side; }
};

int main()
{
    Square square;
    const Shape *shape = &square;
    double sum = 0;
#pragma omp parallel for num_threads(4) reduction(+ : sum)
    for (int i = 0; i < 100; i++)
        sum += shape->area();
    std::printf("%g\n", sum);
}

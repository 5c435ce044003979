// races: 7-24 11-24
// at -O1: some
// One lane makes another object in the place of the one of which the other lane calls a virtual function.
#include <cstdio>
#include <new>

struct Shape {
    virtual double area() const { return 0; }
};

struct Square : Shape {
    double area() const override { return 4; }
};

int main()
{
    Square square;
    double sum = 0;
#pragma omp parallel sections num_threads(2)
    {
#pragma omp section
        new (&square) Square;
#pragma omp section
        sum = static_cast<Shape *>(&square)->area();
    }
    std::printf("%g\n", sum);
}

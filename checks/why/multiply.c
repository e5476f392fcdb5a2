#include "user.h"

int main(int argc, char **argv)
{
    (void)argv;
    int product;
    asm volatile(".option push\n.option arch, +m\nmul %0, %1, %1\n.option pop" : "=r"(product) : "r"(argc));
    return product;
}

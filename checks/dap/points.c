// What the conversation about variables of C looks at. Built by:
//   CFLAGS="-O0 -fdebug-prefix-map=$PWD/checks/dap/= -fdebug-prefix-map=$PWD/programs/c/=" programs/c/build.sh checks/dap/points.c
#include "user.h"

enum side { LEFT = 1, RIGHT };
struct point { int x, y; };
struct shape { char name[8]; struct point corners[2]; enum side side; unsigned small : 3; struct shape *next; };

static struct shape shapes[2] = {
    { "line", { { 1, 2 }, { 3, -4 } }, RIGHT, 5, 0 },
    { "dot", { { 7, 7 } }, LEFT, 1, &shapes[0] },
};
const char *title = "two\tshapes";

static int weight(const struct shape *shape, char letter)
{
    int total = letter;
    for (int k = 0; k < 2; k++) {
        long part = shape->corners[k].x - shape->corners[k].y;
        total += part;
    }
    return total;
}

int main(void)
{
    int all = title[0];
    for (unsigned k = 0; k < 2; k++)
        all += weight(&shapes[k], 'a');
    return all & 63;
}

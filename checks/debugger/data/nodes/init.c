/* Adds up the numbers of a list, for a debugger that looks at variables. */
#include "user.h"

enum color { RED, GREEN, BLUE };

struct node {
    int value;
    struct node *next;
    char name[8];
    enum color color;
    unsigned flag : 3;
};

typedef struct node node_t;

union word {
    unsigned number;
    unsigned char bytes[4];
};

int calls = 3;
static const char *greeting = "hello";
int grid[2][3] = {{1, 2, 3}, {4, 5, 6}};

static __attribute__((noinline)) int total(const struct node *first, int most)
{
    int all = 0;

    for (const struct node *it = first; it != 0; it = it->next) {
        int all_before = all;
        int most = it->value;

        all = all_before + most;
        calls++;
    }
    return all + most;
}

int main(void)
{
    node_t last = {5, 0, "last", GREEN, 2};
    struct node first = {7, &last, "first", BLUE, 5};
    union word word = {0x01020304};
    long long far = -1;

    if (*greeting != 'h')
        return 1;
    return total(&first, grid[1][2]) + (int)word.bytes[3] + (int)far;
}

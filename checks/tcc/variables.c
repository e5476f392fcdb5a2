/* Variables of each kind, for debuggers: what is told of them at the lines that are marked is compared with gcc's. */
#include "user.h"

struct point { int x, y; };
struct list { struct list *next; long value; };
struct flags { unsigned few : 3; unsigned some : 5; int signs : 7; unsigned short wide; char *text; };
union both { struct point point; long whole; };
enum color { RED, GREEN = 5, BLUE };
typedef unsigned char small;

static struct { int number; char text[3]; } pairs[2] = { { 1, "ab" }, { 2, "cd" } };
unsigned long large = 0xffffffffffffffff;
short negative = -3;
int counts[2][3] = { { 1, 2, 3 }, { 4, 5, 6 } };
struct list *head;
char *title = "two\tshapes";

static int sum(int many, ...)
{
    va_list list;
    int all = 0;
    va_start(list, many);
    while (many-- > 0)
        all += va_arg(list, int);
    va_end(list);
    return all; /* at sum */
}

/* A large structure is handed on by its address, a small one in registers; one of more than eight arguments on the stack. */
static long weight(struct flags flags, struct point point, small first, signed char second, long third, enum color color, int *to, int ninth)
{
    static int calls = 40;
    long made = flags.some + point.x + first + second + third + color + ninth;
    for (int turn = 0; turn < 2; turn++) {
        struct local { char a, b; } local = { 'x', (char)('a' + turn) };
        made += local.b - local.b;
        calls++; /* in the block */
    }
    *to = calls;
    return made; /* at weight */
}

int main(void)
{
    struct flags flags = { 5, 17, -9, 40000, "text" };
    struct list last = { NULL, 7 }, first = { &last, 8 };
    union both both;
    _Bool yes = 1;
    int calls = 0;
    head = &first;
    both.whole = 0x100000002;
    long made = weight(flags, both.point, 200, -5, -6000000000, GREEN, &calls, 9);
    int all = sum(3, 1, 2, 3);
    int are = pairs[1].number == 2 && large + 1 == 0 && negative == -3 && counts[1][2] == 6 && title[0] == 't';
    return yes && are && made == -5999999772 && all == 6 && calls == 42 ? 0 : 1; /* at main */
}

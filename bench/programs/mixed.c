/* Work of four kinds in turn: a matrix, a list, a machine of states over a text, and a checksum of the results. */
#include <stdint.h>

enum { SIDE = 12, NODES = 64, ROUNDS = 10000 };

static int16_t left[SIDE][SIDE], right[SIDE][SIDE];
static int32_t product[SIDE][SIDE];

struct node {
    struct node *next;
    uint16_t value;
};

static struct node nodes[NODES];

__attribute__((noinline)) static uint16_t checksum(uint32_t data, uint16_t sum)
{
    for (int i = 0; i < 32; i++) {
        sum = (uint16_t)(((data ^ sum) & 1) ? sum >> 1 ^ 0xa001 : sum >> 1);
        data >>= 1;
    }
    return sum;
}

/* A product by shifts and sums, since there is no instruction for it. */
static int32_t times(int32_t a, int32_t b)
{
    int32_t result = 0;
    for (; b; b = (int32_t)((uint32_t)b >> 1), a <<= 1)
        if (b & 1)
            result += a;
    return result;
}

__attribute__((noinline)) static int32_t multiply(int16_t seed)
{
    int32_t trace = 0;
    for (int i = 0; i < SIDE; i++)
        for (int j = 0; j < SIDE; j++) {
            left[i][j] = (int16_t)((seed + i + 2 * j) & 63);
            right[i][j] = (int16_t)((seed ^ (i + j)) & 31);
        }
    for (int i = 0; i < SIDE; i++)
        for (int j = 0; j < SIDE; j++) {
            product[i][j] = 0;
            for (int k = 0; k < SIDE; k++)
                product[i][j] += times(left[i][k], right[k][j]);
        }
    for (int i = 0; i < SIDE; i++)
        trace += product[i][i];
    return trace;
}

/* Turns the list round, and finds a value in it. */
__attribute__((noinline)) static int walk_list(uint16_t wanted)
{
    struct node *list = 0;
    int place = 0;
    for (int i = 0; i < NODES; i++) {
        nodes[i].value = (uint16_t)(wanted + i - NODES / 2);
        nodes[i].next = list;
        list = &nodes[i];
    }
    struct node *turned = 0;
    while (list) {
        struct node *next = list->next;
        list->next = turned;
        turned = list;
        list = next;
    }
    while (turned && turned->value != wanted)
        turned = turned->next, place++;
    return place;
}

enum state { START, SIGN, DIGITS, FRACTION, BAD };

/* How many of the words in the text are numbers. */
__attribute__((noinline)) static int count_numbers(const char *text)
{
    enum state state = START;
    int numbers = 0;
    for (;; text++) {
        if (*text == ' ' || !*text) {
            numbers += state == DIGITS || state == FRACTION;
            state = START;
            if (!*text)
                return numbers;
            continue;
        }
        switch (state) {
        case START: state = *text == '-' || *text == '+' ? SIGN : *text >= '0' && *text <= '9' ? DIGITS : BAD; break;
        case SIGN: state = *text >= '0' && *text <= '9' ? DIGITS : BAD; break;
        case DIGITS: state = *text == '.' ? FRACTION : *text >= '0' && *text <= '9' ? DIGITS : BAD; break;
        case FRACTION: state = *text >= '0' && *text <= '9' ? FRACTION : BAD; break;
        case BAD: break;
        }
    }
}

int main(void)
{
    uint16_t sum = 0;
    for (int round = 0; round < ROUNDS; round++) {
        sum = checksum((uint32_t)multiply((int16_t)round), sum);
        sum = checksum((uint32_t)walk_list((uint16_t)round), sum);
        sum = checksum((uint32_t)count_numbers("12 -7.5 x19 +3 5. 1e5 -- 44.25 0x1f 99999 hello 6"), sum);
    }
    return sum % 251;
}

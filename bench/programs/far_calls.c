/* 64 functions, 2 KB apart: code over more pages than are near to one another. */
#define FAR(number)                                                                         \
    __attribute__((noinline, aligned(2048))) static unsigned far_##number(unsigned value)   \
    {                                                                                       \
        value = (value << 3 | value >> 29) + number;                                        \
        return value ^ value >> (number % 13 + 1);                                          \
    }
#define FAR8(tens) FAR(tens##0) FAR(tens##1) FAR(tens##2) FAR(tens##3) FAR(tens##4) FAR(tens##5) FAR(tens##6) FAR(tens##7)
#define NAMES8(tens) far_##tens##0, far_##tens##1, far_##tens##2, far_##tens##3, far_##tens##4, far_##tens##5, far_##tens##6, far_##tens##7

FAR8(1) FAR8(2) FAR8(3) FAR8(4) FAR8(5) FAR8(6) FAR8(7) FAR8(8)

static unsigned (*const functions[64])(unsigned) = {NAMES8(1), NAMES8(2), NAMES8(3), NAMES8(4),
                                                    NAMES8(5), NAMES8(6), NAMES8(7), NAMES8(8)};

int main(void)
{
    unsigned value = 1;

    for (int round = 0; round < 600000; round++)
        for (int i = 0; i < 64; i++)
            value = functions[(i + round) & 63](value);
    return (int)(value % 251);
}

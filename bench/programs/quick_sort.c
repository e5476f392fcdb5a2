/* Quick sort with a function pointer for the order: indirect calls of a short function. */
enum { LENGTH = 4096, ROUNDS = 650 };

typedef int order(const void *, const void *);

static unsigned numbers[LENGTH];
static unsigned seed = 1;

static unsigned next_random(void)
{
    seed ^= seed << 13;
    seed ^= seed >> 17;
    seed ^= seed << 5;
    return seed;
}

static int by_value(const void *a, const void *b)
{
    unsigned left = *(const unsigned *)a, right = *(const unsigned *)b;
    return left < right ? -1 : left > right;
}

static int by_low_half(const void *a, const void *b)
{
    unsigned left = *(const unsigned *)a & 0xffff, right = *(const unsigned *)b & 0xffff;
    return left < right ? -1 : left > right;
}

static void quick_sort(unsigned *first, unsigned *last, order *compare)
{
    while (first < last) {
        unsigned *low = first, *high = last, middle = first[(last - first) / 2];
        while (low <= high) {
            while (compare(low, &middle) < 0)
                low++;
            while (compare(&middle, high) < 0)
                high--;
            if (low <= high) {
                unsigned kept = *low;
                *low++ = *high;
                *high-- = kept;
            }
        }
        /* The shorter part by a call, so that the stack stays small. */
        if (high - first < last - low) {
            quick_sort(first, high, compare);
            first = low;
        } else {
            quick_sort(low, last, compare);
            last = high;
        }
    }
}

int main(void)
{
    unsigned sum = 0;

    for (int round = 0; round < ROUNDS; round++) {
        for (int i = 0; i < LENGTH; i++)
            numbers[i] = next_random();
        quick_sort(numbers, numbers + LENGTH - 1, round % 2 ? by_value : by_low_half);
        for (int i = 0; i < LENGTH; i++)
            sum += numbers[i] ^ (unsigned)i;
    }
    return (int)(sum % 251);
}

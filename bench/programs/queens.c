/* In how many ways stand nine queens on a board, none in another's way: recursion and bits. */
static unsigned ways(unsigned all, unsigned columns, unsigned falling, unsigned rising)
{
    unsigned count = 0;

    if (columns == all)
        return 1;
    for (unsigned free = all & ~(columns | falling | rising); free; free &= free - 1) {
        unsigned queen = free & -free;
        count += ways(all, columns | queen, (falling | queen) << 1, (rising | queen) >> 1);
    }
    return count;
}

int main(void)
{
    unsigned sum = 0;

    for (int round = 0; round < 600; round++)
        sum += ways((1u << (9 + round % 2)) - 1, 0, 0, 0);
    return (int)(sum % 251);
}

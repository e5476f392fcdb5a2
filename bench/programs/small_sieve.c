/* Primes below 8,192 by the sieve of Eratosthenes, again and again: a loop over a few pages. */
enum { SIZE = 8192, ROUNDS = 6000 };

static unsigned char is_composite[SIZE];

static unsigned count_primes(void)
{
    unsigned count = 0;

    for (unsigned i = 0; i < SIZE; i++)
        is_composite[i] = 0;
    for (unsigned i = 2; i < SIZE; i++) {
        if (is_composite[i])
            continue;
        count++;
        for (unsigned multiple = i + i; multiple < SIZE; multiple += i)
            is_composite[multiple] = 1;
    }
    return count;
}

int main(void)
{
    unsigned sum = 0;

    for (int round = 0; round < ROUNDS; round++)
        sum += count_primes();
    return (int)(sum % 251);
}

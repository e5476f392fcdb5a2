/* Calls: the Fibonacci numbers by plain recursion. */
static unsigned fibonacci(unsigned n)
{
    return n < 2 ? n : fibonacci(n - 1) + fibonacci(n - 2);
}

int main(void)
{
    return (int)(fibonacci(36) % 251);
}

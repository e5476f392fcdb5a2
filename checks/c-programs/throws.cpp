// An exception, which is refused.
int main(int count, char **)
{
    if (count > 5)
        throw count;
}

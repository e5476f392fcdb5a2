/* Texts: words are made, copied, hashed and counted in a table. Small functions, bytes. */
enum { PLACES = 1024, WORDS = 512, LONGEST = 24, ROUNDS = 6500 };

struct entry {
    char word[LONGEST];
    unsigned count;
};

static struct entry table[PLACES];
static unsigned seed = 1;

__attribute__((noinline)) static unsigned length_of(const char *text)
{
    const char *end = text;
    while (*end)
        end++;
    return (unsigned)(end - text);
}

__attribute__((noinline)) static void copy_text(char *to, const char *from)
{
    while ((*to++ = *from++))
        ;
}

__attribute__((noinline)) static int are_equal(const char *a, const char *b)
{
    while (*a && *a == *b)
        a++, b++;
    return *a == *b;
}

__attribute__((noinline)) static unsigned hash_of(const char *text)
{
    unsigned hash = 5381;
    for (; *text; text++)
        hash = (hash << 5) + hash + (unsigned char)*text;
    return hash;
}

__attribute__((noinline)) static void make_word(char *word, unsigned number)
{
    static const char syllables[] = "kamositarenuhalo";
    do {
        *word++ = syllables[number % 8 * 2];
        *word++ = syllables[number % 8 * 2 + 1];
        number /= 8;
    } while (number);
    *word = 0;
}

__attribute__((noinline)) static unsigned count(const char *word)
{
    unsigned place = hash_of(word) % PLACES;
    while (table[place].count && !are_equal(table[place].word, word))
        place = (place + 1) % PLACES;
    if (!table[place].count)
        copy_text(table[place].word, word);
    return ++table[place].count;
}

int main(void)
{
    char word[LONGEST];
    unsigned sum = 0;

    for (int round = 0; round < ROUNDS; round++) {
        for (int i = 0; i < WORDS; i++) {
            seed = seed * 5 + 12345;
            make_word(word, seed >> 7 & (WORDS - 1));
            sum += count(word) + length_of(word);
        }
    }
    return (int)(sum % 251);
}

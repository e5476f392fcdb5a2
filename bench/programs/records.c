/* Records, pointers to them, texts and many small functions: what programs of systems mostly do. */
enum kind { RED, GREEN, BLUE };

struct record {
    struct record *partner;
    enum kind kind;
    int amount;
    char name[32];
};

enum { ROUNDS = 1300000 };

static struct record first, second;
static int totals[64];
static int is_even;
static char last_letter;

__attribute__((noinline)) static void copy_name(char *to, const char *from)
{
    do
        *to++ = *from;
    while (*from++);
}

__attribute__((noinline)) static int names_differ(const char *a, const char *b)
{
    while (*a && *a == *b)
        a++, b++;
    return *a - *b;
}

__attribute__((noinline)) static enum kind kind_after(enum kind kind)
{
    switch (kind) {
    case RED: return GREEN;
    case GREEN: return is_even ? BLUE : RED;
    default: return RED;
    }
}

__attribute__((noinline)) static void settle(struct record *record, int amount)
{
    struct record *partner = record->partner;
    *partner = *record;
    partner->amount = amount + 5;
    partner->kind = kind_after(record->kind);
    partner->partner = record;
    record->amount = partner->amount - 1;
}

__attribute__((noinline)) static void note(int *places, int at, int amount)
{
    places[at] = amount;
    places[at + 1] = places[at];
    places[at + 30] = at;
    last_letter = (char)('a' + (at & 15));
}

int main(void)
{
    int sum = 0;

    first.partner = &second;
    second.partner = &first;
    copy_name(first.name, "a record of the first kind");
    for (int round = 0; round < ROUNDS; round++) {
        char name[32];
        is_even = !(round & 1);
        copy_name(name, is_even ? "a record of the first kind" : "a record of the second one");
        if (names_differ(name, first.name) > 0)
            sum++;
        settle(&first, round & 255);
        note(totals, round & 31, second.amount);
        sum += first.amount + totals[(round >> 1) & 31] + last_letter + (int)second.kind;
    }
    return (int)((unsigned)sum % 251);
}

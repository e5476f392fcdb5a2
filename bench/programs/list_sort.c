/* Merge sort of a linked list: loads that follow one another, and branches that nobody can guess. */
enum { LENGTH = 4096, ROUNDS = 900 };

struct node {
    struct node *next;
    unsigned value;
};

static struct node nodes[LENGTH];
static unsigned seed = 1;

static unsigned next_random(void)
{
    seed ^= seed << 13;
    seed ^= seed >> 17;
    seed ^= seed << 5;
    return seed;
}

static struct node *merged(struct node *a, struct node *b)
{
    struct node head, *last = &head;

    while (a && b) {
        struct node **least = a->value <= b->value ? &a : &b;
        last->next = *least;
        last = *least;
        *least = last->next;
    }
    last->next = a ? a : b;
    return head.next;
}

/* By places: part i holds none, or a sorted list of 2^i nodes. */
static struct node *sorted(struct node *list)
{
    struct node *parts[16], *all = 0;

    for (int i = 0; i < 16; i++)
        parts[i] = 0;
    while (list) {
        struct node *one = list;
        int i = 0;
        list = list->next;
        one->next = 0;
        for (; parts[i]; i++) {
            one = merged(parts[i], one);
            parts[i] = 0;
        }
        parts[i] = one;
    }
    for (int i = 0; i < 16; i++)
        all = merged(parts[i], all);
    return all;
}

int main(void)
{
    unsigned sum = 0;

    for (int round = 0; round < ROUNDS; round++) {
        for (int i = 0; i < LENGTH; i++) {
            nodes[i].value = next_random();
            nodes[i].next = i + 1 < LENGTH ? &nodes[i + 1] : 0;
        }
        unsigned place = 0;
        for (struct node *at = sorted(nodes); at; at = at->next)
            sum += at->value ^ place++;
    }
    return (int)(sum % 251);
}

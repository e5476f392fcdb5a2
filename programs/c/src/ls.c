/* ls [NAME..]: names the files of the machine that can be opened: of these names, or of the programs of programs/bin. There are
   no directories, so it can't find a file whose name it isn't told. */
#include "user.h"

static const char *const known[] = {"cat", "crash", "echo", "forks", "grep", "head", "help", "init", "kill", "lazy", "ls",
                                    "pingpong", "primes", "sh", "sleep", "sort", "storm", "tests", "wc"};

static int is_there(const char *name)
{
    int descriptor = open(name, TO_READ);

    if (descriptor >= 0)
        close(descriptor);
    return descriptor >= 0;
}

int main(int count, char *words[])
{
    const char *const *names = count > 1 ? (const char *const *)words + 1 : known;
    size_t names_count = count > 1 ? (size_t)count - 1 : sizeof known / sizeof known[0];
    const char *between = "";

    for (size_t k = 0; k < names_count; k++)
        if (is_there(names[k])) {
            printf("%s%s", between, names[k]);
            between = "  ";
        }
    printf("\n");
    return 0;
}

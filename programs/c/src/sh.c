/* The shell: sh [FILE]. It reads lines of commands, from the file or from its input, and runs them:

     PROGRAM TEXT..     runs a program with its texts, and waits until it has ended
     COMMAND < FILE     its input is a file
     COMMAND | COMMAND  what the first writes is the input of the second; both run at the same time
     COMMAND ; COMMAND  the second begins when the first has ended
     COMMAND &          isn't waited for; its pid is shown
     ( COMMANDS )       runs them by a shell of their own
     exit [STATUS]      ends the shell, with the status of the last command if none is given
     wait               waits for all begun by &
     # ..               is passed over, as an empty line is

   There are no quotes: a text is what stands between blanks. There is no >, since files can't be written. */
#include "user.h"

enum {
    LINE_ROOM = 512, /* bytes of a line */
    NODES = 64,      /* commands of a line, and the signs that join them */
    WORDS = 128,     /* words of a line, and an end for each command */
};

enum kind { PROGRAM, GROUP, PIPELINE, SEQUENCE, BACKGROUND };

struct node {
    enum kind kind;
    char **words;       /* of a program: its name, its texts, and NULL */
    const char *file;   /* of a program or a group: what it reads in place of its input, or NULL */
    struct node *left;  /* of a group and what is in the background: what stands there; of others: what comes first */
    struct node *right; /* of a pipeline and a sequence: what comes second */
};

/* The line that is read, and what was made of it. */
static char line[LINE_ROOM];
static char letters[2 * LINE_ROOM]; /* the words' letters, each with a zero byte behind it */
static char *words[WORDS];
static struct node nodes[NODES];
static char *place;                 /* in the line: what isn't read yet */
static char *free_letters;
static int used_words;
static int used_nodes;
static const char *mistake;         /* what is wrong with the line, or NULL */

static int source;                  /* the descriptor that lines come from */
static int last_status;

/* Reading a line's commands. */

static int is_blank(char byte)
{
    return byte == ' ' || byte == '\t';
}

static int is_sign(char byte)
{
    return byte != 0 && strchr("|<>;&()", byte) != NULL;
}

static char next_sign(void)
{
    while (is_blank(*place))
        place++;
    return *place;
}

static int took(char sign)
{
    if (next_sign() != sign)
        return 0;
    place++;
    return 1;
}

static struct node *refuse(const char *what)
{
    if (mistake == NULL)
        mistake = what;
    return NULL;
}

static struct node *make(enum kind kind, struct node *left, struct node *right)
{
    if (mistake != NULL)
        return NULL;
    if (used_nodes == NODES)
        return refuse("the line has too many commands");
    struct node *node = &nodes[used_nodes++];
    *node = (struct node){.kind = kind, .left = left, .right = right};
    return node;
}

static void add_word(char *word)
{
    if (used_words == WORDS)
        refuse("the line has too many words");
    else
        words[used_words++] = word;
}

/* The word that stands at the place, or NULL where none does. */
static char *read_word(void)
{
    char *word = free_letters;

    next_sign();
    while (*place != 0 && !is_blank(*place) && !is_sign(*place))
        *free_letters++ = *place++;
    if (free_letters == word)
        return NULL;
    *free_letters++ = 0;
    return word;
}

static struct node *read_list(void);

/* What may stand between and behind a command's words: < FILE. */
static void read_redirection(struct node *node)
{
    while (took('<')) {
        const char *file = read_word();

        if (file == NULL)
            refuse("a file's name must follow <");
        if (node != NULL)
            node->file = file;
    }
    if (next_sign() == '>')
        refuse("there is no >, since files can't be written");
}

static struct node *read_program(void)
{
    struct node *node = make(PROGRAM, NULL, NULL);
    int first = used_words;
    char *word;

    while ((word = read_word()) != NULL) {
        add_word(word);
        read_redirection(node);
    }
    if (used_words == first)
        return refuse("a command is missing");
    add_word(NULL);
    if (node != NULL)
        node->words = words + first;
    return node;
}

static struct node *read_group(void)
{
    struct node *node = make(GROUP, read_list(), NULL);

    if (!took(')'))
        return refuse("a ) is missing");
    read_redirection(node);
    return node;
}

static struct node *read_pipeline(void)
{
    struct node *left = took('(') ? read_group() : read_program();

    return took('|') ? make(PIPELINE, left, read_pipeline()) : left;
}

static struct node *read_list(void)
{
    struct node *left = read_pipeline();

    if (took('&'))
        left = make(BACKGROUND, left, NULL);
    else if (!took(';'))
        return left;
    char sign = next_sign();
    return sign == 0 || sign == ')' ? left : make(SEQUENCE, left, read_list());
}

/* The commands of the line, or NULL where there are none or something is wrong. */
static struct node *read_commands(void)
{
    place = line;
    free_letters = letters;
    used_words = 0;
    used_nodes = 0;
    mistake = NULL;
    if (next_sign() == 0 || *place == '#')
        return NULL;
    struct node *node = read_list();
    if (next_sign() != 0)
        refuse("there is a ) or a word too many");
    return mistake == NULL ? node : NULL;
}

/* Running them. */

static int run(const struct node *node);

static void tell_end(int pid, int status)
{
    if (status == -1)
        dprintf(ERRORS, "sh: process %d ended with -1: a fault or a kill\n", pid);
}

/* Waits until this child has ended, and answers its status. Others may end meanwhile. */
static int await(int child)
{
    int status;
    int ended;

    while ((ended = wait(&status)) >= 0) {
        tell_end(ended, status);
        if (ended == child)
            return status;
    }
    return -1;
}

static int await_all(void)
{
    while (await(0) >= 0)
        ;
    return 0;
}

static void open_input(const char *file)
{
    close(INPUT);
    if (open(file, TO_READ) != INPUT)
        fail("sh: %s can't be opened\n", file);
}

/* What a file's first bytes say of why it is no program for this machine (ELF-64 Object File Format, "File header"). */
static const char *fault_of(const unsigned char *head, int count)
{
    static const unsigned char begin[] = { 0x7f, 'E', 'L', 'F' };

    if (count < 64 || memcmp(head, begin, sizeof begin) != 0)
        return "it isn't an ELF file";
    if (head[4] != 2)
        return "it is for a processor of 32 bits";
    if (head[5] != 1)
        return "its numbers begin with the high byte";
    if (head[18] != 243 || head[19] != 0)
        return head[18] == 62 && head[19] == 0 ? "it is for x86-64, and not for RISC-V" : "it is for another processor than RISC-V";
    return "its segments can't be loaded, or its words or its memory don't fit";
}

/* Tells why exec has refused a program. */
static _Noreturn __attribute__((noinline)) void tell_refusal(const char *name)
{
    unsigned char head[64];
    int file = open(name, TO_READ);

    if (file < 0)
        fail("sh: %s can't be run: there is no such program\n", name);
    fail("sh: %s can't be run: %s\n", name, fault_of(head, read(file, head, sizeof head)));
}

static void run_program(char **texts)
{
    exec(texts[0], texts);
    tell_refusal(texts[0]);
}

/* Whether the shell does this command itself. */
static int is_own(const struct node *node)
{
    return node->kind == PROGRAM && (strcmp(node->words[0], "exit") == 0 || strcmp(node->words[0], "wait") == 0);
}

/* Runs a command in this process, which is a child and ends with it. */
static _Noreturn void become(const struct node *node)
{
    if (source != INPUT)
        close(source);
    source = INPUT;
    if (node->file != NULL)
        open_input(node->file);
    if (node->kind == PROGRAM && !is_own(node))
        run_program(node->words);
    exit(run(node->kind == GROUP ? node->left : node));
}

/* Makes a child that runs the command, and answers its pid. Where there is a pipe, the child's descriptor `which` is the
   pipe's end of this number: INPUT its end for reading, OUTPUT its end for writing. */
static int begin(const struct node *node, int which, const int ends[2])
{
    int child = fork();

    if (child < 0)
        dprintf(ERRORS, "sh: there is no room for a process\n");
    if (child != 0)
        return child;
    if (ends != NULL) {
        close(which);
        dup(ends[which]);
        close(ends[0]);
        close(ends[1]);
    }
    become(node);
}

static int run_pipeline(const struct node *node)
{
    int ends[2];

    if (pipe(ends) < 0) {
        dprintf(ERRORS, "sh: there is no room for a pipe\n");
        return 1;
    }
    int left = begin(node->left, OUTPUT, ends);
    int right = begin(node->right, INPUT, ends);
    close(ends[0]);
    close(ends[1]);
    /* Either may end first. The pipeline's status is that of its second command. */
    int status = 1;
    while (left > 0 || right > 0) {
        int ended_status;
        int ended = wait(&ended_status);

        tell_end(ended, ended_status);
        if (ended == right)
            status = ended_status;
        if (ended == left || ended < 0)
            left = 0;
        if (ended == right || ended < 0)
            right = 0;
    }
    return status;
}

static int run_background(const struct node *node)
{
    int child = begin(node->left, 0, NULL);

    if (child < 0)
        return 1;
    dprintf(ERRORS, "[%d]\n", child);
    return 0;
}

static int run_own(char **texts)
{
    if (strcmp(texts[0], "wait") == 0)
        return await_all();
    exit(texts[1] != NULL ? atoi(texts[1]) : last_status);
}

static int run_alone(const struct node *node)
{
    if (is_own(node))
        return run_own(node->words);
    int child = begin(node, 0, NULL);
    return child < 0 ? 1 : await(child);
}

static int run(const struct node *node)
{
    switch (node->kind) {
    case PIPELINE:
        last_status = run_pipeline(node);
        break;
    case BACKGROUND:
        last_status = run_background(node);
        break;
    case SEQUENCE:
        run(node->left);
        return run(node->right);
    default:
        last_status = run_alone(node);
    }
    return last_status;
}

/* Reads a line, byte by byte: what stands behind it is for the programs that it runs. Answers 0 at the end. */
static int read_line(void)
{
    int length = 0;
    int count;

    while ((count = read(source, line + length, 1)) == 1 && line[length] != '\n')
        if (length < LINE_ROOM - 1)
            length++;
    line[length] = 0;
    return length > 0 || count == 1;
}

int main(int count, char *names[])
{
    if (count > 1)
        source = open(names[1], TO_READ);
    if (source < 0)
        fail("sh: %s can't be opened\n", names[1]);
    for (;;) {
        if (source == INPUT)
            dprintf(ERRORS, "$ ");
        if (!read_line())
            return last_status;
        struct node *commands = read_commands();
        if (commands != NULL)
            run(commands);
        else if (mistake != NULL) {
            dprintf(ERRORS, "sh: %s\n", mistake);
            last_status = 1;
        }
    }
}

/* Compares what the project, GNU and LLVM say of words; see README.md.
 *
 *   compare OBJECT DIFFERENCES sweep OPCODE     of all words whose bits 6 to 2 are these, 0 to 31, and bits 1 and 0 are 11
 *   compare OBJECT DIFFERENCES whole OPCODE..   the same with GNU's whole table, which takes ten times as long
 *   compare OBJECT DIFFERENCES short            of all words whose bits 1 and 0 are others
 *   compare OBJECT DIFFERENCES tell             of the words of the standard input, in hexadecimal: a line for each with the text
 *                                               that all three have, for sample.txt
 *
 * The status is 1 if a word is another than the project and the list of differences say, 2 if it can't be tried.
 */
#include <stdbool.h>
#include <stdio.h>
#include <stdlib.h>
#include <string.h>
#include <time.h>

#include "texts.h"

enum { MOST_ROWS = 64, NAME_BYTES = 24, MOST_TOLD = 20, WORDS_OF_OPCODE = 1 << 25, GNU = 0, LLVM = 1 };

static const char *const others[] = {"gnu", "llvm"};

/* A row of the list: words of which another one says, in place of what the project says, that they are the instruction NAME, or
 * refuses them (`refused`), or says the same (`same`), and how many there are that no row before has. */
struct row {
    int other;
    uint32_t mask, match;
    char name[NAME_BYTES];
    unsigned long wanted, found;
};

static struct row rows[MOST_ROWS];
static int row_count;
static int wrong;

static void read_rows(const char *path)
{
    FILE *file = fopen(path, "r");
    char line[400], other[8];
    while (file && row_count < MOST_ROWS && fgets(line, sizeof line, file)) {
        struct row *row = &rows[row_count];
        if (sscanf(line, "%7s %x %x %23s %lu", other, &row->mask, &row->match, row->name, &row->wanted) != 5)
            continue;
        row->other = strcmp(other, "gnu") == 0 ? GNU : LLVM;
        row_count++;
    }
    if (!file || !row_count) {
        fprintf(stderr, "%s: there are no rows\n", path);
        exit(2);
    }
    fclose(file);
}

static struct row *row_of(int other, uint32_t word)
{
    for (struct row *row = rows; row < rows + row_count; row++)
        if (row->other == other && (word & row->mask) == row->match)
            return row;
    return NULL;
}

static size_t name_length(const char *text)
{
    return strcspn(text, " \t");
}

static bool is_named(const char *text, const char *name)
{
    return strlen(name) == name_length(text) && strncmp(text, name, strlen(name)) == 0;
}

static bool is_shift(const char *text)
{
    return text[0] == 's' && (text[1] == 'l' || text[1] == 'r') && text[2] != 't' && text[3] == 'i';
}

static bool has_target(const char *text)
{
    return text[0] == 'b' || strncmp(text, "jal ", 4) == 0;
}

static bool has_upper(const char *text)
{
    return strncmp(text, "lui ", 4) == 0 || strncmp(text, "auipc ", 6) == 0;
}

/* Copies the operands of a text, with what stands between two. */
static char *copy_operands(char *to, const char *from, const char *between)
{
    while (*from) {
        if (strncmp(from, ", ", 2) == 0) {
            to = stpcpy(to, between);
            from += 2;
        } else {
            *to++ = *from++;
        }
    }
    *to = 0;
    return to;
}

/* Where the last operand of a text begins. */
static char *last_operand(char *text)
{
    char *end = text + strlen(text);
    while (end > text && end[-1] != ' ' && end[-1] != ',' && end[-1] != '\t')
        end--;
    return end;
}

/* A fence without operands is one of all accesses; that there are none, 0 here, both write as `unknown`. */
static void write_fence(char *to, const char *ours, const char *between)
{
    const char *first = ours[5] ? ours + 6 : "iorw, iorw";
    const char *second = strstr(first, ", ") + 2;
    int first_length = second - 2 - first;
    const char *none = "unknown";
    if (first[0] == '0')
        to += sprintf(to, "fence\t%s%s", none, between);
    else
        to += sprintf(to, "fence\t%.*s%s", first_length, first, between);
    strcpy(to, second[0] == '0' ? none : second);
}

/* What GNU or LLVM writes for a text of the project: another blank before and between operands, and other bases of numbers. */
static const char *as_other(int other, const char *ours)
{
    static char made[TEXT_BYTES];
    const char *between = other == GNU ? "," : ", ";
    if (is_named(ours, "fence")) {
        write_fence(made, ours, between);
        return made;
    }
    size_t length = name_length(ours);
    memcpy(made, ours, length);
    made[length] = 0;
    if (!ours[length])
        return made;
    made[length] = '\t';
    copy_operands(made + length + 1, ours + length + 1, between);
    char *last = last_operand(made);
    if (other == GNU && is_shift(ours))
        sprintf(last, "0x%x", atoi(last));
    if (other == LLVM && (has_target(ours) || has_upper(ours)))
        sprintf(last, "%ld", (long)strtoull(last, NULL, 16));
    return made;
}

static bool is_as_wanted(int other, uint32_t word, const char *ours, const char *theirs)
{
    struct row *row = row_of(other, word);
    if (row)
        row->found++;
    if (!row || strcmp(row->name, "same") == 0)
        return strcmp(ours[0] ? as_other(other, ours) : "", theirs) == 0;
    if (strcmp(row->name, "refused") == 0)
        return ours[0] && !theirs[0];
    return is_named(theirs, row->name) && !is_named(ours, row->name);
}

static void compare_with(int other, uint32_t word, const char *ours, const char *theirs)
{
    if (is_as_wanted(other, word, ours, theirs))
        return;
    if (wrong++ < MOST_TOLD)
        printf("%08x: the project says \"%s\", %s \"%s\"\n", word, ours, others[other], theirs);
}

/* Whether each row of the opcode has as many words as the list says. */
static void check_counts(uint32_t low)
{
    for (struct row *row = rows; row < rows + row_count; row++) {
        if ((row->match & 0x7f) != low || row->found == row->wanted)
            continue;
        wrong++;
        printf("%s %08x %08x %s: %lu words, and the list says %lu\n", others[row->other], row->mask, row->match, row->name, row->found, row->wanted);
    }
}

static double seconds(void)
{
    struct timespec now;
    clock_gettime(CLOCK_MONOTONIC, &now);
    return now.tv_sec + now.tv_nsec / 1e9;
}

static void sweep(uint32_t low)
{
    unsigned long instructions = 0;
    double begin = seconds();
    for (uint32_t high = 0; high < WORDS_OF_OPCODE; high++) {
        uint32_t word = high << 7 | low;
        const char *ours = ours_text(word);
        instructions += ours[0] != 0;
        compare_with(GNU, word, ours, gnu_text(word));
        compare_with(LLVM, word, ours, llvm_text(word));
    }
    check_counts(low);
    printf("opcode %02x: %u words, of which %lu are instructions, in %.0f s\n", low, WORDS_OF_OPCODE, instructions, seconds() - begin);
    fflush(stdout);
}

/* A word that doesn't end in 11 is none of 32 bits. GNU and LLVM look at its lower half alone, so they get each of those with
 * sixteen upper halves. */
static void sweep_short(void)
{
    double begin = seconds();
    unsigned long asked = 0;
    for (uint32_t word = 0;; word++) {
        if ((word & 3) != 3) {
            asked++;
            if (ours_text(word)[0] && wrong++ < MOST_TOLD)
                printf("%08x: the project says \"%s\"\n", word, ours_text(word));
        }
        if (word == UINT32_MAX)
            break;
    }
    for (uint32_t upper = 0; upper < 16; upper++)
        for (uint32_t lower = 0; lower < 1 << 16; lower++)
            if ((lower & 3) != 3) {
                uint32_t word = (upper * 0x11111111u & 0xffff0000u) | lower;
                compare_with(GNU, word, "", gnu_text(word));
                compare_with(LLVM, word, "", llvm_text(word));
            }
    printf("other low bits: %lu words are no instructions, in %.0f s\n", asked, seconds() - begin);
}

/* Of the words of the standard input that no row of the list has: the text that all three have, if they have one. */
static void tell(void)
{
    uint32_t word;
    while (scanf("%x", &word) == 1) {
        if (row_of(GNU, word) || row_of(LLVM, word))
            continue;
        const char *ours = ours_text(word);
        compare_with(GNU, word, ours, gnu_text(word));
        compare_with(LLVM, word, ours, llvm_text(word));
        printf("%08x%s%s\n", word, *ours ? " " : "", ours);
    }
}

int main(int count, char **words)
{
    if (count < 4) {
        fprintf(stderr, "usage: compare OBJECT DIFFERENCES sweep OPCODE | whole OPCODE.. | short | tell\n");
        return 2;
    }
    ours_begin();
    gnu_begin(words[1]);
    llvm_begin();
    read_rows(words[2]);
    if (strcmp(words[3], "tell") == 0)
        tell();
    else if (strcmp(words[3], "short") == 0)
        sweep_short();
    else
        for (int at = 4; at < count; at++) {
            uint32_t low = strtoul(words[at], NULL, 10) * 4 % 128 + 3;
            if (strcmp(words[3], "sweep") == 0)
                gnu_keep_opcode(low);
            sweep(low);
        }
    if (wrong)
        printf("%d differ\n", wrong);
    return wrong != 0;
}

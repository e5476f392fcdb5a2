/* GNU's text of a word, without aliases. */
#define _GNU_SOURCE
#define PACKAGE "compare" /* bfd.h wants to know */
#include <bfd.h>
#include <dis-asm.h>

#include <dlfcn.h>
#include <stdarg.h>
#include <stdbool.h>
#include <stdio.h>
#include <stdlib.h>
#include <string.h>
#include <sys/mman.h>
#include <unistd.h>

#include "texts.h"

static disassembler_ftype disassemble;
static struct disassemble_info about;
static uint32_t at_zero;
static char text[TEXT_BYTES];
static size_t length;

/* libopcodes calls it for each part of a line. The first two formats are the commonest. */
static int put_styled(void *stream, enum disassembler_style style, const char *format, ...)
{
    (void)stream, (void)style;
    va_list parts;
    va_start(parts, format);
    if (strcmp(format, "%s") == 0)
        length = stpcpy(text + length, va_arg(parts, const char *)) - text;
    else if (!strchr(format, '%'))
        length = stpcpy(text + length, format) - text;
    else
        length += vsnprintf(text + length, sizeof text - length, format, parts);
    va_end(parts);
    return 0;
}

static int put(void *stream, const char *format, ...)
{
    (void)stream, (void)format;
    abort(); /* RISC-V's lines come with styles */
}

static void put_address(bfd_vma address, struct disassemble_info *info)
{
    (void)info;
    length += sprintf(text + length, "0x%llx", (unsigned long long)address);
}

static int read_memory(bfd_vma at, bfd_byte *to, unsigned count, struct disassemble_info *info)
{
    (void)info;
    if (at + count > sizeof at_zero)
        return 1;
    memcpy(to, (const char *)&at_zero + at, count);
    return 0;
}

static void refuse_memory(int status, bfd_vma at, struct disassemble_info *info)
{
    (void)status, (void)at, (void)info;
}

/* A row of libopcodes' table of RISC-V, as binutils 2.40 has it. */
struct gnu_row {
    const char *name;
    unsigned xlen, class;
    const char *operands;
    uint64_t match, mask;
    int (*matches)(const struct gnu_row *, uint64_t);
    unsigned long kind;
};

static void stop(const char *why)
{
    fprintf(stderr, "%s\n", why);
    exit(2);
}

/* The first byte of the table's end; its rows are to be those that are known here. */
static char *table_end(const struct gnu_row *table)
{
    bool found = false;
    for (; table && table->name; table++)
        found = found || (strcmp(table->name, "mret") == 0 && table->match == 0x30200073 && table->mask == 0xffffffff);
    if (!found)
        stop("this libopcodes has another table than binutils 2.40's");
    return (char *)(table + 1);
}

/* A search goes through all rows behind its opcode's first one, some 1,500, if none fits. So those are taken out of the table that
 * want another opcode than this one, all words of which are asked for next: none of them can fit. The first row stays, since the
 * library's code was compiled with what stands in it. */
void gnu_keep_opcode(uint32_t low)
{
    struct gnu_row *table = dlsym(RTLD_DEFAULT, "riscv_opcodes"), *kept, *row;
    char *end = table_end(table), *first_page = (char *)table - (uintptr_t)table % sysconf(_SC_PAGESIZE);
    if (mprotect(first_page, end - first_page, PROT_READ | PROT_WRITE) != 0)
        stop("the table of libopcodes can't be written");
    kept = table + 1;
    for (row = kept; row->name; row++)
        if (((row->match ^ low) & row->mask & 0x7f) == 0)
            *kept++ = *row;
    *kept = *row;
}

void gnu_begin(const char *object)
{
    bfd_init();
    bfd *file = bfd_openr(object, NULL);
    if (!file || !bfd_check_format(file, bfd_object))
        stop("libbfd can't read the object file");
    disassemble = disassembler(bfd_arch_riscv, false, bfd_mach_riscv64, file);
    init_disassemble_info(&about, NULL, put, put_styled);
    about.arch = bfd_arch_riscv;
    about.mach = bfd_mach_riscv64;
    about.endian = about.endian_code = BFD_ENDIAN_LITTLE;
    about.read_memory_func = read_memory;
    about.memory_error_func = refuse_memory;
    about.print_address_func = put_address;
    about.disassembler_options = "no-aliases";
    disassemble_init_for_target(&about);
}

/* A word that isn't one instruction of four bytes is shown as data: `.4byte`, `.2byte`, or as many. Behind an instruction may stand the
 * address that its operands and instructions before it make, as `# 0x40`; it is left out. */
const char *gnu_text(uint32_t word)
{
    at_zero = word;
    length = 0;
    text[0] = 0;
    if (disassemble(0, &about) != 4 || text[0] == '.')
        return "";
    char *comment = strstr(text, " # ");
    if (comment)
        *comment = 0;
    return text;
}

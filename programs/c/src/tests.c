/* tests [NAME..]: tries the kernel's calls, each refusal of theirs and each limit, and the library. Each test is a
   process of its own: what fails in it is told, and ends it alone. Without words all tests are made. The last
   lines say whether a page was lost, and the verdict; the status is 0 where all passed. */
#include "user.h"

#define CHECK(condition) \
    do { \
        if (!(condition)) \
            fail("  line %d: %s\n", __LINE__, #condition); \
    } while (0)

enum {
    NOBODY = 123456789, /* no process has this pid */
    BRIEFLY = 10,       /* ticks */
};

/* An address to which no process here grows, but where that is what it tries. */
#define NOWHERE ((void *)(1L << 37))

static char page[PAGE_BYTES];
static char bytes[PIPE_BYTES + 400];

typedef int (*action)(void);

/* What the tests share. */

/* A child that does the action and exits with what it answers. */
static int begin(action act)
{
    int child = fork();

    CHECK(child >= 0);
    if (child == 0)
        exit(act());
    return child;
}

static int await(int child)
{
    int status;

    CHECK(wait(&status) == child);
    return status;
}

/* The status of a child that does the action: -1 after a fault. */
static int status_of(action act)
{
    return await(begin(act));
}

static int grow_by_all(void)
{
    int pages = 0;

    while (sbrk(PAGE_BYTES) != NO_MEMORY)
        pages++;
    return pages;
}

static void shrink_by(int pages)
{
    CHECK(sbrk(-pages * PAGE_BYTES) != NO_MEMORY);
}

static int count_free_pages(void)
{
    int pages = grow_by_all();

    shrink_by(pages);
    return pages;
}

/* Puts a byte of its own into each place. */
static void fill(char *to, int count)
{
    for (int place = 0; place < count; place++)
        to[place] = place + (place >> 8);
}

static int is_filled(const char *from, int first, int count)
{
    for (int place = 0; place < count; place++)
        if (from[place] != (char)(first + place + ((first + place) >> 8)))
            return 0;
    return 1;
}

static int is_zero(const char *from, int count)
{
    for (int place = 0; place < count; place++)
        if (from[place] != 0)
            return 0;
    return 1;
}

static int exit_7(void)
{
    return 7;
}

static int sleep_long(void)
{
    return sleep(1000000);
}

static int sleep_briefly(void)
{
    return sleep(BRIEFLY);
}

/* Processes. */

static int exit_with_many_bits(void)
{
    kernel_call(2, 0x500000009, 0, 0);
    return 1;
}

static int exit_with_minus_5(void)
{
    return -5;
}

static void statuses(void)
{
    CHECK(status_of(exit_7) == 7);
    CHECK(status_of(exit_with_minus_5) == -5);
    CHECK(status_of(exit_with_many_bits) == 9); /* a status is a C int */
}

static void pids(void)
{
    int first = begin(exit_7);

    CHECK(first > getpid());
    CHECK(await(first) == 7);
    int second = begin(exit_7); /* no pid comes again */
    CHECK(second > first);
    CHECK(await(second) == 7);
}

static void waits(void)
{
    int status = 42;

    CHECK(wait(&status) == -1 && status == 42); /* no child */
    int child = begin(exit_7);
    CHECK(kernel_call(3, 1, 0, 0) == -1);            /* the text may not be written */
    CHECK(wait(NOWHERE) == -1);
    CHECK(wait((int *)-2L) == -1);
    CHECK(wait((int *)(sbrk(0) - 2)) == -1);         /* two of four bytes lie behind the end */
    CHECK(wait(&status) == child && status == 7);
    child = begin(exit_7);
    CHECK(wait(NULL) == child);
    CHECK(wait(NULL) == -1);
}

/* Of several children that have ended, wait takes the one of least pid. */
static void waits_for_the_least(void)
{
    int first = begin(exit_7);
    int second = begin(exit_with_minus_5);

    sleep(BRIEFLY);
    CHECK(await(first) == 7);
    CHECK(await(second) == -5);
}

static int ends_before_its_child(void)
{
    begin(sleep_briefly);
    return 3;
}

/* A child's child isn't ours, also when the child has ended. */
static void orphans(void)
{
    CHECK(status_of(ends_before_its_child) == 3);
    CHECK(wait(NULL) == -1);
    sleep(BRIEFLY + 2); /* it has ended, and init has taken it in */
    CHECK(wait(NULL) == -1);
}

static int store_and_exit(void)
{
    page[5] = 'c';
    return page[5];
}

static void memories_are_apart(void)
{
    page[5] = 'p';
    CHECK(status_of(store_and_exit) == 'c');
    CHECK(page[5] == 'p');
}

/* Children until fork refuses; each waits until the pipe's last writer is gone. */
static int fork_until_refused(void)
{
    int ends[2];
    int children = 0;
    int child;

    CHECK(pipe(ends) == 0);
    while ((child = fork()) > 0)
        children++;
    if (child == 0) {
        close(ends[1]);
        exit(read(ends[0], bytes, 1));
    }
    close(ends[0]);
    close(ends[1]);
    for (int ended = 0; ended < children; ended++)
        CHECK(wait(NULL) > 0);
    CHECK(wait(NULL) == -1);
    return children;
}

/* init, a shell or two, and this program's two processes have slots of their own. */
static void processes_have_a_limit(void)
{
    int children = fork_until_refused();

    CHECK(children > PROCESSES - 8 && children < PROCESSES - 2);
    CHECK(fork_until_refused() == children);
}

static int fork_and_answer(void)
{
    int child = fork();

    if (child == 0)
        exit(0);
    return child > 0 ? await(child) : 1;
}

static void fork_needs_frames(void)
{
    int pages = grow_by_all();

    CHECK(fork() == -1);
    CHECK(pages > 40);
    shrink_by(pages);
    CHECK(fork_and_answer() == 0);
}

static void kills(void)
{
    CHECK(kill(0) == -1);
    CHECK(kill(-1) == -1);
    CHECK(kill(NOBODY) == -1);
    int child = begin(sleep_long);
    sleep(BRIEFLY);
    CHECK(kill(child) == 0);
    CHECK(kill(child) == 0);
    CHECK(await(child) == -1);
    CHECK(kill(child) == -1);
    child = begin(exit_7); /* a zombie isn't changed */
    sleep(BRIEFLY);
    CHECK(kill(child) == 0);
    CHECK(await(child) == 7);
}

static int kill_itself(void)
{
    return kill(getpid());
}

static int loop_for_ever(void)
{
    volatile int goes_on = 1;

    while (goes_on)
        ;
    return 0;
}

static int read_own_pipe(void)
{
    int ends[2];

    CHECK(pipe(ends) == 0);
    return read(ends[0], bytes, 1);
}

static int write_own_pipe(void)
{
    int ends[2];

    CHECK(pipe(ends) == 0);
    return write(ends[1], bytes, PIPE_BYTES + 1);
}

static int wait_for_a_sleeper(void)
{
    begin(sleep_briefly);
    return wait(NULL);
}

static void kills_whatever_it_waits_for(void)
{
    static const action acts[] = {loop_for_ever, read_own_pipe, write_own_pipe, wait_for_a_sleeper};

    CHECK(status_of(kill_itself) == -1);
    for (unsigned place = 0; place < sizeof acts / sizeof acts[0]; place++) {
        int child = begin(acts[place]);

        sleep(3);
        CHECK(kill(child) == 0);
        CHECK(await(child) == -1);
    }
    sleep(BRIEFLY); /* the sleeper has ended too */
}

/* Sleeps for two ticks with a number of its own in each register but sp, and answers 0 where all of them stay. */
static long changed_registers(void)
{
    register long changed asm("a0");

    asm volatile(
        "li a0, 2\n li a7, 13\n"
        "li ra, 101\n li gp, 103\n li tp, 104\n li t0, 105\n li t1, 106\n li t2, 107\n li s0, 108\n li s1, 109\n"
        "li a1, 111\n li a2, 112\n li a3, 113\n li a4, 114\n li a5, 115\n li a6, 116\n"
        "li s2, 118\n li s3, 119\n li s4, 120\n li s5, 121\n li s6, 122\n li s7, 123\n"
        "li s8, 124\n li s9, 125\n li s10, 126\n li s11, 127\n"
        "li t3, 128\n li t4, 129\n li t5, 130\n li t6, 131\n"
        "ecall\n"
        /* Each register minus its number is 0: what isn't 0 is gathered in a0, which holds the answer 0. */
        "addi ra, ra, -101\n or a0, a0, ra\n addi gp, gp, -103\n or a0, a0, gp\n"
        "addi tp, tp, -104\n or a0, a0, tp\n addi s0, s0, -108\n or a0, a0, s0\n"
        "addi t0, t0, -105\n or a0, a0, t0\n addi t1, t1, -106\n or a0, a0, t1\n"
        "addi t2, t2, -107\n or a0, a0, t2\n addi s1, s1, -109\n or a0, a0, s1\n"
        "addi a1, a1, -111\n or a0, a0, a1\n addi a2, a2, -112\n or a0, a0, a2\n"
        "addi a3, a3, -113\n or a0, a0, a3\n addi a4, a4, -114\n or a0, a0, a4\n"
        "addi a5, a5, -115\n or a0, a0, a5\n addi a6, a6, -116\n or a0, a0, a6\n"
        "addi a7, a7, -13\n or a0, a0, a7\n"
        "addi s2, s2, -118\n or a0, a0, s2\n addi s3, s3, -119\n or a0, a0, s3\n"
        "addi s4, s4, -120\n or a0, a0, s4\n addi s5, s5, -121\n or a0, a0, s5\n"
        "addi s6, s6, -122\n or a0, a0, s6\n addi s7, s7, -123\n or a0, a0, s7\n"
        "addi s8, s8, -124\n or a0, a0, s8\n addi s9, s9, -125\n or a0, a0, s9\n"
        "addi s10, s10, -126\n or a0, a0, s10\n addi s11, s11, -127\n or a0, a0, s11\n"
        "addi t3, t3, -128\n or a0, a0, t3\n addi t4, t4, -129\n or a0, a0, t4\n"
        "addi t5, t5, -130\n or a0, a0, t5\n addi t6, t6, -131\n or a0, a0, t6\n"
        : "=r"(changed)
        :
        : "ra", "gp", "tp", "t0", "t1", "t2", "s0", "s1", "a1", "a2", "a3", "a4", "a5", "a6", "a7", "s2", "s3", "s4", "s5", "s6", "s7",
          "s8", "s9", "s10", "s11", "t3", "t4", "t5", "t6", "memory");
    return changed;
}

/* Registers stay over a call, and over the turns of others. */
static void registers_stay(void)
{
    int child = begin(loop_for_ever);

    for (int time = 0; time < 5; time++)
        CHECK(changed_registers() == 0);
    CHECK(kill(child) == 0 && await(child) == -1);
}

/* The clock. */

static void sleeps(void)
{
    long before = uptime();

    CHECK(before >= 0);
    CHECK(sleep(0) == 0);
    CHECK(sleep(-5) == 0);
    CHECK(sleep(3) == 0);
    CHECK(uptime() - before >= 3);
}

/* Memory. */

static void grows(void)
{
    char *end = sbrk(0);

    CHECK(sbrk(1) == end && sbrk(0) == end + 1);
    CHECK(end[0] == 0);
    CHECK(sbrk(-1) == end + 1);
    CHECK(sbrk(3 * PAGE_BYTES) == end);
    CHECK(is_zero(end, 3 * PAGE_BYTES));
    fill(end, 3 * PAGE_BYTES);
    CHECK(is_filled(end, 0, 3 * PAGE_BYTES));
    CHECK(sbrk(-2 * PAGE_BYTES) == end + 3 * PAGE_BYTES);
    CHECK(is_filled(end, 0, PAGE_BYTES));
    CHECK(sbrk(2 * PAGE_BYTES) == end + PAGE_BYTES); /* new pages hold zeros, also where bytes stood before */
    CHECK(is_zero(end + PAGE_BYTES, 2 * PAGE_BYTES));
    CHECK(sbrk(-3 * PAGE_BYTES) != NO_MEMORY);
    CHECK(sbrk(0) == end);
}

static void growth_has_limits(void)
{
    char *end = sbrk(0);

    CHECK(sbrk(-(int)(uintptr_t)end - 1) == NO_MEMORY); /* below 0 */
    CHECK(sbrk(INT32_MIN) == NO_MEMORY);
    CHECK(sbrk(INT32_MAX) == NO_MEMORY);                /* more frames than there are */
    CHECK(kernel_call(12, 0x100000000, 0, 0) == (long)end); /* a C int: 0 */
    CHECK(sbrk(0) == end);
    int pages = grow_by_all();
    CHECK(sbrk(0) == end + pages * PAGE_BYTES);
    CHECK(sbrk(1) == NO_MEMORY);
    shrink_by(pages);
    CHECK(count_free_pages() == pages);
}

static int dirty_all_pages(void)
{
    char *end = sbrk(0);
    int pages = grow_by_all();

    for (long place = 0; place < (long)pages * PAGE_BYTES; place += 8)
        *(long *)(end + place) = 0x5555555555555555;
    return 0;
}

/* No byte that another process left comes with a new page. */
static void new_pages_are_zeros(void)
{
    CHECK(status_of(dirty_all_pages) == 0);
    char *end = sbrk(0);
    int pages = grow_by_all();
    for (long place = 0; place < (long)pages * PAGE_BYTES; place += 8)
        CHECK(*(long *)(end + place) == 0);
    shrink_by(pages);
}

/* Memory that comes when it is touched: a page below the end that isn't there yet is absent. */

enum { GIGABYTE = 1 << 30 };

/* Where the memory of the tests below begins. */
static char *promised;

static void lazy_growth(void)
{
    char *end = sbrk(0);

    CHECK(sbrklazy(GIGABYTE) == end && sbrk(0) == end + GIGABYTE);
    CHECK(end[GIGABYTE / 2] == 0); /* a load brings a page, and so does a store */
    end[0] = 5;
    end[GIGABYTE - 1] = 6;
    CHECK(end[0] == 5 && end[GIGABYTE - 1] == 6 && is_zero(end + 1, PAGE_BYTES - 1));
    CHECK(sbrk(PAGE_BYTES) == end + GIGABYTE); /* sbrk brings its pages at once, behind the absent ones */
    CHECK(sbrk(-GIGABYTE - PAGE_BYTES) == end + GIGABYTE + PAGE_BYTES);
    CHECK(sbrklazy(1) == end && sbrklazy(0) == end + 1);
    CHECK(is_zero(end, PAGE_BYTES)); /* the page in which the memory ends may be touched to its last byte */
}

static void shrink_to(char *end)
{
    long above;

    while ((above = sbrk(0) - end) > 0)
        CHECK(sbrk(above > INT32_MAX ? INT32_MIN : -above) != NO_MEMORY);
}

static void lazy_growth_has_limits(void)
{
    char *end = sbrk(0);

    CHECK(sbrklazy(-1) == NO_MEMORY);
    CHECK(sbrklazy(INT32_MIN) == NO_MEMORY);
    CHECK(kernel_call(22, 0x100000000, 0, 0) == (long)end); /* a C int: 0 */
    while (sbrklazy(INT32_MAX) != NO_MEMORY)
        ;
    long left = MEMORY_BYTES - (long)sbrk(0);
    CHECK(left >= 0 && left < INT32_MAX);
    CHECK(sbrklazy(left + 1) == NO_MEMORY);
    CHECK(sbrklazy(left) != NO_MEMORY && sbrk(0) == (char *)MEMORY_BYTES);
    CHECK(sbrklazy(1) == NO_MEMORY && sbrk(1) == NO_MEMORY);
    ((char *)MEMORY_BYTES)[-1] = 7;
    CHECK(((char *)MEMORY_BYTES)[-1] == 7);
    shrink_to(end);
    CHECK(sbrk(0) == end);
}

/* Calls that store bring the pages in which they store. */
static void absent_pages_are_read_into(void)
{
    int file = open("tests", TO_READ);
    char *end = sbrklazy(4 * PAGE_BYTES);
    int *ends = (int *)(end + 2 * PAGE_BYTES);
    int *status = (int *)(end + 3 * PAGE_BYTES);

    CHECK(read(file, end + PAGE_BYTES - 2, 4) == 4);
    CHECK(memcmp(end + PAGE_BYTES - 2, "\177ELF", 4) == 0 && is_zero(end, PAGE_BYTES - 2));
    CHECK(read(file, end + 4 * PAGE_BYTES - 1, 2) == -1); /* one of two bytes lies behind the end */
    CHECK(pipe(ends) == 0 && ends[0] == 4 && ends[1] == 5);
    CHECK(wait(status) == -1 && *status == 0);
    int child = begin(exit_7);
    CHECK(wait(status) == child && *status == 7);
}

static int read_into_promised(void)
{
    return read(3, promised, PAGE_BYTES + 1) == 2 && promised[0] == 'x' && promised[1] == 'y' ? 0 : 1;
}

/* A reader waits, and its pages are there when the bytes come. */
static void a_reader_with_absent_pages_waits(void)
{
    int ends[2];

    CHECK(pipe(ends) == 0 && ends[0] == 3);
    promised = sbrklazy(2 * PAGE_BYTES);
    int child = begin(read_into_promised);
    sleep(3);
    CHECK(write(ends[1], "xy", 2) == 2);
    CHECK(await(child) == 0);
}

/* Calls that read find zeros, and bring no page: they are done where no frame is free. */
static void absent_pages_are_written_as_zeros(void)
{
    int ends[2];
    char *end = sbrklazy(3 * PAGE_BYTES);

    CHECK(pipe(ends) == 0);
    int pages = grow_by_all();
    CHECK(write(ends[1], end + PAGE_BYTES - 5, 10) == 10);
    memset(bytes, 1, 11);
    CHECK(read(ends[0], bytes, 100) == 10 && is_zero(bytes, 10) && bytes[10] == 1);
    CHECK(write(ends[1], end + 3 * PAGE_BYTES + pages * PAGE_BYTES - 1, 2) == -1);
    shrink_by(pages);
}

static int exec_with_absent_text(void)
{
    char *texts[] = {"tests", "exits-with", "4", sbrklazy(1), NULL};

    exec("tests", texts);
    return 100;
}

static void names_in_absent_pages(void)
{
    char *name = sbrk(PAGE_BYTES) + PAGE_BYTES - 5;
    char *end = sbrklazy(PAGE_BYTES);

    memcpy(name, "tests", 5); /* the zero byte behind it lies in the absent page */
    CHECK(open(name, TO_READ) == 3);
    CHECK(open(end, TO_READ) == -1);
    CHECK(exec(end, (char **)end) == -1);
    CHECK(status_of(exec_with_absent_text) == 4);
}

static int store_into_promised(void)
{
    if (promised[0] != 'p' || promised[GIGABYTE / 2] != 0)
        return 1;
    promised[0] = promised[GIGABYTE / 2] = 'c';
    return sbrk(0) == promised + GIGABYTE ? promised[0] : 2;
}

static void a_child_has_absent_pages_of_its_own(void)
{
    promised = sbrklazy(GIGABYTE);
    promised[0] = 'p';
    CHECK(status_of(store_into_promised) == 'c');
    CHECK(promised[0] == 'p' && promised[GIGABYTE / 2] == 0);
}

static int touch_all(void)
{
    for (volatile char *at = promised; at < promised + GIGABYTE; at += PAGE_BYTES)
        *at = 1;
    return 0;
}

static int load_all(void)
{
    int sum = 0;

    for (volatile char *at = promised; at < promised + GIGABYTE; at += PAGE_BYTES)
        sum += *at;
    return sum;
}

/* More is promised than there is. Who touches too much ends by a fault, and what it had comes back. */
static void promises_are_broken(void)
{
    int pages = count_free_pages();

    promised = sbrklazy(GIGABYTE);
    CHECK(status_of(touch_all) == -1);
    CHECK(status_of(load_all) == -1);
    shrink_to(promised);
    CHECK(count_free_pages() == pages);
}

/* A call whose buffer needs more frames than are free is refused, and takes none. */
static void buffers_need_frames(void)
{
    int file = open("tests", TO_READ);
    int pages = grow_by_all();
    char *end = sbrklazy(PAGE_BYTES);

    CHECK(read(file, end, 1) == -1);
    CHECK(read(file, end, 0) == 0);
    CHECK(pipe((int *)end) == -1);
    CHECK(sbrk(-2 * PAGE_BYTES) == end + PAGE_BYTES); /* one frame is free */
    end = sbrklazy(2 * PAGE_BYTES);
    CHECK(read(file, end + PAGE_BYTES - 1, 2) == -1); /* it needs two pages */
    CHECK(pipe((int *)end) == -1);                    /* a page, and a frame for the pipe */
    CHECK(read(file, end, 4) == 4 && memcmp(end, "\177ELF", 4) == 0);
    CHECK(sbrk(-2 * PAGE_BYTES) != NO_MEMORY);
    shrink_by(pages - 1);
}

/* A child that has ended isn't lost where its status finds no room. */
static void a_status_needs_a_frame(void)
{
    int child = begin(exit_7);

    sleep(BRIEFLY);
    int pages = grow_by_all();
    int *status = (int *)sbrklazy(PAGE_BYTES);
    CHECK(wait(status) == -1);
    CHECK(sbrk(-PAGE_BYTES) != NO_MEMORY);
    shrink_by(pages);
    status = (int *)sbrklazy(PAGE_BYTES);
    CHECK(wait(status) == child && *status == 7);
}

/* Faults. Each ends the process with -1. */

static int load_from(const volatile char *address)
{
    return *address == 0;
}

static int store_to(volatile char *address)
{
    *address = 1;
    return 0;
}

static int store_to_text(void)
{
    return store_to((char *)kernel_call);
}

static int load_nowhere(void)
{
    return load_from(NOWHERE);
}

static int store_nowhere(void)
{
    return store_to(NOWHERE);
}

static int load_from_no_address(void)
{
    return load_from((char *)(1L << 62));
}

static int load_behind_the_end(void)
{
    sbrk(1);
    return load_from(sbrk(0) + PAGE_BYTES);
}

static int load_what_is_gone(void)
{
    char *end = sbrk(PAGE_BYTES);

    *end = 1;
    sbrk(-PAGE_BYTES);
    return load_from(end);
}

/* The guard page lies below the page of the stack. */
static int store_below_the_stack(void)
{
    uintptr_t stack = (uintptr_t)__builtin_frame_address(0) & -(uintptr_t)PAGE_BYTES;

    return store_to((char *)stack - 1);
}

static int recurse(volatile int depth)
{
    return depth == 0 ? 0 : recurse(depth - 1) + 1;
}

static int use_all_stack(void)
{
    return recurse(100000);
}

static int jump_to(const void *address)
{
    asm volatile("jalr %0" : : "r"(address) : "ra", "memory");
    return 0;
}

static int jump_into_data(void)
{
    return jump_to(page);
}

/* An absent page comes for a load or a store, and not to be executed. */
static int jump_into_an_absent_page(void)
{
    return jump_to(sbrklazy(PAGE_BYTES));
}

static int load_behind_absent_pages(void)
{
    sbrklazy(PAGE_BYTES + 1);
    return load_from(sbrk(0) + PAGE_BYTES - 1);
}

static int load_absent_and_misaligned(void)
{
    long value;

    asm volatile("ld %0, 1(%1)" : "=r"(value) : "r"(sbrklazy(PAGE_BYTES)));
    return value == 0;
}

static int jump_to_half_a_word(void)
{
    return jump_to((char *)kernel_call + 2);
}

static int load_misaligned(void)
{
    long value;

    asm volatile("ld %0, 1(%1)" : "=r"(value) : "r"(page));
    return value == 0;
}

static int store_misaligned(void)
{
    asm volatile("sw zero, 2(%0)" : : "r"(page) : "memory");
    return 0;
}

static int do_no_instruction(void)
{
    asm volatile(".word 0");
    return 0;
}

/* mul a0, a0, a0: the machine has no extension M. */
static int multiply(void)
{
    asm volatile(".word 0x02a50533");
    return 0;
}

static int break_off(void)
{
    asm volatile("ebreak");
    return 0;
}

static void faults(void)
{
    static const action acts[] = {
        store_to_text, load_nowhere, store_nowhere, load_from_no_address, load_behind_the_end, load_what_is_gone,
        store_below_the_stack, use_all_stack, jump_into_data, jump_to_half_a_word, load_misaligned,
        store_misaligned, do_no_instruction, multiply, break_off, jump_into_an_absent_page, load_behind_absent_pages,
        load_absent_and_misaligned,
    };

    for (unsigned place = 0; place < sizeof acts / sizeof acts[0]; place++) {
        int status = status_of(acts[place]);

        if (status != -1)
            fail("  fault %d: the status is %d\n", place, status);
    }
}

/* Descriptors. */

static void descriptors_have_a_limit(void)
{
    int next = 3;

    while (next < DESCRIPTORS && dup(OUTPUT) == next)
        next++;
    CHECK(next == DESCRIPTORS);
    CHECK(dup(OUTPUT) == -1);
    CHECK(open("console", TO_WRITE) == -1);
    CHECK(open("tests", TO_READ) == -1);
    int ends[2] = {-7, -7};
    CHECK(pipe(ends) == -1 && ends[0] == -7);
    CHECK(close(DESCRIPTORS - 1) == 0);
    CHECK(pipe(ends) == -1 && ends[0] == -7); /* it needs two */
    CHECK(close(9) == 0);
    CHECK(pipe(ends) == 0 && ends[0] == 9 && ends[1] == DESCRIPTORS - 1);
}

static void bad_descriptors(void)
{
    static const int bad[] = {-1, 3, DESCRIPTORS - 1, DESCRIPTORS, 64, NOBODY, INT32_MIN};

    for (unsigned place = 0; place < sizeof bad / sizeof bad[0]; place++) {
        CHECK(read(bad[place], bytes, 1) == -1);
        CHECK(write(bad[place], bytes, 1) == -1);
        CHECK(dup(bad[place]) == -1);
        CHECK(close(bad[place]) == -1);
    }
    CHECK(read(OUTPUT, bytes, 1) == -1); /* it may only be written */
    CHECK(write(INPUT, bytes, 1) == -1); /* it may only be read */
    CHECK(close(INPUT) == 0);
    CHECK(close(INPUT) == -1);
    CHECK(dup(OUTPUT) == INPUT);
}

static void bad_buffers(void)
{
    int file = open("tests", TO_READ);
    char *end = sbrk(0);
    uintptr_t guard = ((uintptr_t)__builtin_frame_address(0) & -(uintptr_t)PAGE_BYTES) - PAGE_BYTES;

    CHECK(file >= 0);
    CHECK(read(file, NOWHERE, 1) == -1);
    CHECK(read(file, (void *)kernel_call, 1) == -1); /* text */
    CHECK(read(file, (void *)guard, 1) == -1);
    CHECK(read(file, (char *)(guard + PAGE_BYTES) - 1, 2) == -1);
    CHECK(read(file, end - 1, 2) == -1);
    CHECK(read(file, (void *)-1L, 2) == -1);
    CHECK(read(file, NOWHERE, 0) == 0); /* nothing is asked of it */
    CHECK(read(file, bytes, -1) == -1);
    CHECK(read(file, bytes, INT32_MIN) == -1);
    CHECK(write(OUTPUT, NOWHERE, 1) == -1);
    CHECK(write(OUTPUT, end - 1, 2) == -1);
    CHECK(write(OUTPUT, bytes, -1) == -1);
    CHECK(write(OUTPUT, NOWHERE, 0) == 0);
    CHECK(read(file, bytes, 4) == 4 && memcmp(bytes, "\177ELF", 4) == 0); /* the offset is still 0 */
}

static void names(void)
{
    static char long_name[NAME_BYTES + 10];

    CHECK(open("no such file", TO_READ) == -1);
    CHECK(open("", TO_READ) == -1);
    CHECK(open("tests/", TO_READ) == -1);
    CHECK(open(NOWHERE, TO_READ) == -1);
    CHECK(open("tests", TO_WRITE) == -1);
    CHECK(open("tests", TO_BOTH) == -1);
    CHECK(open("tests", 0x200) == -1);
    CHECK(open("console", 3) == -1);
    CHECK(open("console", -1) == -1);
    CHECK(open("console", TO_BOTH) == 3);
    CHECK(open("///console", TO_READ) == 4);
    memset(long_name, '/', sizeof long_name - 1);
    memcpy(long_name + NAME_BYTES - 6, "tests", 6);
    CHECK(open(long_name, TO_READ) == 5); /* with its zero byte it has as many bytes as are read */
    memcpy(long_name + NAME_BYTES - 6, "/tests", 7);
    CHECK(open(long_name, TO_READ) == -1);
}

/* Files. */

static int read_2(void)
{
    return read(3, bytes, 2);
}

static void files(void)
{
    CHECK(open("tests", TO_READ) == 3);
    CHECK(read(3, bytes, 100) == 100);
    int again = open("tests", TO_READ);
    CHECK(again == 4 && read(again, bytes + 100, 100) == 100); /* it has an offset of its own */
    CHECK(memcmp(bytes, bytes + 100, 100) == 0);
    int copy = dup(again); /* a copy shares the offset */
    CHECK(read(copy, bytes, 50) == 50 && read(again, bytes + 50, 50) == 50);
    CHECK(close(3) == 0 && open("tests", TO_READ) == 3);
    CHECK(read(3, bytes + 300, 200) == 200);
    CHECK(memcmp(bytes, bytes + 400, 100) == 0);
    CHECK(write(3, bytes, 1) == -1);
}

static void files_end(void)
{
    int file = open("tests", TO_READ);
    int count;

    while ((count = read(file, bytes, sizeof bytes)) == sizeof bytes)
        ;
    CHECK(count >= 0 && count < (int)sizeof bytes);
    CHECK(read(file, bytes, 1) == 0);
    CHECK(read(file, bytes, 1) == 0);
}

static void a_child_shares_offsets(void)
{
    CHECK(open("tests", TO_READ) == 3);
    CHECK(status_of(read_2) == 2);
    CHECK(read(3, bytes, 2) == 2 && memcmp(bytes, "LF", 2) == 0);
}

/* Pipes. */

static void pipes(void)
{
    int ends[2];

    CHECK(pipe(ends) == 0 && ends[0] == 3 && ends[1] == 4);
    CHECK(write(ends[0], "a", 1) == -1);
    CHECK(read(ends[1], bytes, 1) == -1);
    CHECK(write(ends[1], "abcde", 5) == 5);
    CHECK(read(ends[0], bytes, 2) == 2 && memcmp(bytes, "ab", 2) == 0);
    CHECK(write(ends[1], "fg", 2) == 2);
    CHECK(read(ends[0], bytes, 100) == 5 && memcmp(bytes, "cdefg", 5) == 0);
    CHECK(write(ends[1], "h", 1) == 1);
    CHECK(close(ends[1]) == 0);
    CHECK(read(ends[0], bytes, 100) == 1 && bytes[0] == 'h'); /* bytes stay when the writers are gone */
    CHECK(read(ends[0], bytes, 100) == 0);
    CHECK(read(ends[0], bytes, 100) == 0);
}

static void pipes_refuse(void)
{
    int ends[2];
    char *end = sbrk(0);

    CHECK(kernel_call(4, 1, 0, 0) == -1);             /* text */
    CHECK(pipe(NOWHERE) == -1);
    CHECK(kernel_call(4, (long)end - 4, 0, 0) == -1); /* the second number doesn't fit */
    CHECK(pipe(ends) == 0 && ends[0] == 3 && ends[1] == 4);
    CHECK(close(ends[0]) == 0);
    CHECK(write(ends[1], "a", 1) == -1);              /* nobody reads */
    CHECK(write(ends[1], "a", 0) == 0);
    CHECK(close(ends[1]) == 0);
    int pages = grow_by_all();
    CHECK(pipe(ends) == -1);                          /* a pipe costs a frame */
    shrink_by(1);
    CHECK(pipe(ends) == 0);
    CHECK(sbrk(1) == NO_MEMORY);
    CHECK(close(ends[0]) == 0 && sbrk(1) == NO_MEMORY);
    CHECK(close(ends[1]) == 0 && sbrk(1) != NO_MEMORY && sbrk(-1) != NO_MEMORY);
    shrink_by(pages - 1);
}

/* Writes as many bytes as a pipe holds, and some more, and tells how that ended. */
static int write_many(void)
{
    static char many[PIPE_BYTES + 400];

    fill(many, sizeof many);
    return write(4, many, sizeof many) == sizeof many ? 5 : 6;
}

static void pipes_hold(void)
{
    int ends[2];

    CHECK(pipe(ends) == 0 && ends[1] == 4);
    int child = begin(write_many);
    sleep(3);
    CHECK(read(ends[0], bytes, sizeof bytes) == PIPE_BYTES); /* the writer waits with the others */
    CHECK(is_filled(bytes, 0, PIPE_BYTES));
    sleep(3);
    CHECK(read(ends[0], bytes, sizeof bytes) == sizeof bytes - PIPE_BYTES);
    CHECK(is_filled(bytes, PIPE_BYTES, sizeof bytes - PIPE_BYTES));
    CHECK(await(child) == 5);
}

/* A writer that waits is refused when the last reader goes. */
static void a_writer_is_left_alone(void)
{
    int ends[2];

    CHECK(pipe(ends) == 0 && ends[1] == 4);
    int child = fork();
    if (child == 0) {
        close(ends[0]);
        exit(write_many());
    }
    sleep(3);
    CHECK(close(ends[0]) == 0);
    CHECK(await(child) == 6);
}

static int echo_pipe(void)
{
    int count;
    int sum = 0;

    close(4);
    while ((count = read(3, bytes, 7)) > 0)
        sum += count;
    return sum;
}

/* A reader gets the end once the last of several writers is gone. */
static void readers_wait_for_all_writers(void)
{
    int ends[2];

    CHECK(pipe(ends) == 0 && ends[1] == 4);
    int child = begin(echo_pipe);
    int copy = dup(ends[1]);
    CHECK(write(copy, "0123456789", 10) == 10);
    CHECK(close(ends[1]) == 0);
    sleep(BRIEFLY);
    CHECK(write(copy, "0123456789", 10) == 10);
    CHECK(close(copy) == 0);
    CHECK(await(child) == 20);
}

/* Several writers: no byte is lost, and each one's bytes keep their order. */
static int write_letters(char letter)
{
    static char letters[97];

    memset(letters, letter, sizeof letters);
    close(3);
    for (int time = 0; time < 50; time++)
        if (write(4, letters, sizeof letters) != sizeof letters)
            return 1;
    return 0;
}

static int write_a(void)
{
    return write_letters('a');
}

static int write_b(void)
{
    return write_letters('b');
}

static void several_writers(void)
{
    int ends[2];
    int counts[2] = {0, 0};
    int count;

    CHECK(pipe(ends) == 0 && ends[1] == 4);
    int first = begin(write_a);
    int second = begin(write_b);
    CHECK(close(ends[1]) == 0);
    while ((count = read(ends[0], bytes, sizeof bytes)) > 0)
        for (int place = 0; place < count; place++) {
            CHECK(bytes[place] == 'a' || bytes[place] == 'b');
            counts[bytes[place] - 'a']++;
        }
    CHECK(counts[0] == 50 * 97 && counts[1] == 50 * 97);
    sleep(BRIEFLY);
    CHECK(await(first) == 0);
    CHECK(await(second) == 0);
}

/* exec. This program is also run by itself: `tests exits-with N TEXT..` ends with N where its count of words is
   N, and with 99 else; see main for others. */

static int exec_words(int count, char *word)
{
    static char *texts[TEXTS + 3];
    static char number[12];

    texts[0] = "tests";
    texts[1] = "exits-with";
    texts[2] = number;
    number[0] = '0' + count / 10;
    number[1] = '0' + count % 10;
    for (int place = 3; place < count; place++)
        texts[place] = word;
    texts[count] = NULL;
    exec("tests", texts);
    return 100;
}

static int exec_3(void)
{
    return exec_words(3, "");
}

static int exec_most_words(void)
{
    return exec_words(TEXTS, "x");
}

static int exec_too_many_words(void)
{
    return exec_words(TEXTS + 1, "x");
}

static int exec_after_growth(void)
{
    CHECK(sbrk(1000 * PAGE_BYTES) != NO_MEMORY);
    return exec_words(5, "word");
}

static int exec_after_lazy_growth(void)
{
    char *end = sbrklazy(GIGABYTE);

    end[GIGABYTE / 2] = 1;
    return exec_words(5, "word");
}

/* The texts, each in a multiple of 16 bytes, and then an address for each and a null pointer stand in the page of
   the stack: beside three short texts and 5 * 8 bytes there is room for this one. */
enum { LONGEST_TEXT = PAGE_BYTES - 3 * 16 - 48 - 1 };

static int exec_text(int length)
{
    static char text[TEXT_BYTES];

    memset(text, 'l', length);
    return exec_words(4, text);
}

static int exec_long_text(void)
{
    return exec_text(LONGEST_TEXT - 1024);
}

static int exec_longest_text(void)
{
    return exec_text(LONGEST_TEXT);
}

static int exec_too_long_text(void)
{
    return exec_text(LONGEST_TEXT + 1);
}

static void execs(void)
{
    CHECK(status_of(exec_3) == 3);
    CHECK(status_of(exec_most_words) == TEXTS);
    CHECK(status_of(exec_too_many_words) == 100);
    CHECK(status_of(exec_after_growth) == 5);
    CHECK(status_of(exec_after_lazy_growth) == 5);
    CHECK(status_of(exec_long_text) == 4);
    CHECK(status_of(exec_longest_text) == -1); /* it is done, and then there is no stack left to run on */
    CHECK(status_of(exec_too_long_text) == 100);
}

static void execs_are_refused(void)
{
    static char *const texts[] = {"tests", NULL};

    CHECK(exec("no such file", texts) == -1);
    CHECK(exec("console", texts) == -1);
    CHECK(exec("", texts) == -1);
    CHECK(exec(NOWHERE, texts) == -1);
    CHECK(exec("tests", NOWHERE) == -1);
    static char *const bad[] = {"tests", NOWHERE, NULL};
    CHECK(exec("tests", bad) == -1);
    int pages = grow_by_all();
    CHECK(exec("tests", texts) == -1); /* the new memory needs frames while the old one is there */
    shrink_by(pages);
}

static int look_at_new_memory(void)
{
    static char *const texts[] = {"tests", "new-memory", NULL};

    memset(page, 1, sizeof page);
    memset(bytes, 1, sizeof bytes);
    exec("tests", texts);
    return 100;
}

/* How many of this program's variables and of the lower half of its stack, which nobody has used yet, aren't 0. */
static int count_old_bytes(void)
{
    char *stack = (char *)((uintptr_t)__builtin_frame_address(0) & -(uintptr_t)PAGE_BYTES);
    int count = 0;

    for (unsigned place = 0; place < sizeof page; place++)
        count += page[place] != 0;
    for (unsigned place = 0; place < sizeof bytes; place++)
        count += bytes[place] != 0;
    for (int place = 0; place < PAGE_BYTES / 2; place++)
        count += stack[place] != 0;
    return count;
}

/* A program begins with zeros, whatever stood in memory before. */
static void exec_makes_new_memory(void)
{
    CHECK(status_of(dirty_all_pages) == 0);
    CHECK(status_of(look_at_new_memory) == 0);
}

static int run_reader(void)
{
    static char *const texts[] = {"tests", "reads-from-5", NULL};

    exec("tests", texts);
    return 100;
}

/* Descriptors stay open, and in place. */
static void exec_keeps_descriptors(void)
{
    int ends[2];

    CHECK(pipe(ends) == 0);
    CHECK(dup(ends[0]) == 5);
    CHECK(write(ends[1], "xyz", 3) == 3);
    CHECK(status_of(run_reader) == 3);
}

/* Numbers that are no call's. */
static void unknown_calls(void)
{
    static const long numbers[] = {0, 8, 9, 17, 18, 19, 20, 23, 99, -1, 1000000, INT32_MIN};

    for (unsigned place = 0; place < sizeof numbers / sizeof numbers[0]; place++)
        CHECK(kernel_call(numbers[place], 1, 2, 3) == -1);
    CHECK(kernel_call(0x10000000b, 0, 0, 0) == getpid()); /* a number is a C int */
}

/* The console. */

/* More bytes than wait to be sent at a time. */
static void console_takes_long_writes(void)
{
    static char dots[3 * SEND_BYTES];

    memset(dots, '.', sizeof dots);
    dots[sizeof dots - 1] = '\n';
    CHECK(write(OUTPUT, dots, sizeof dots) == sizeof dots);
    CHECK(write(OUTPUT, dots, 0) == 0);
}

/* The library. */

static uint64_t next_random(uint64_t *state)
{
    *state ^= *state << 13;
    *state ^= *state >> 7;
    *state ^= *state << 17;
    return *state;
}

static void products_and_quotients(void)
{
    uint64_t state = 88172645463325252;
    volatile uint64_t zero = 0;

    CHECK(next_random(&state) * 3 == state + state + state);
    for (int time = 0; time < 200; time++) {
        uint64_t dividend = next_random(&state) >> (time & 31);
        uint64_t divisor = (next_random(&state) >> (time & 63)) | 1;

        CHECK(dividend % divisor < divisor);
        CHECK(dividend / divisor * divisor + dividend % divisor == dividend);
        CHECK((int64_t)dividend / 7 * 7 + (int64_t)dividend % 7 == (int64_t)dividend);
    }
    volatile int seven = 7, two = 2;
    CHECK(-seven / two == -3 && -seven % two == -1 && seven / -two == -3 && seven % -two == 1);
    CHECK(seven / zero == UINT64_MAX && seven % zero == 7);
}

static int prints(const char *wanted, int count)
{
    memset(bytes, 0, sizeof bytes);
    return read(3, bytes, sizeof bytes) == count && strcmp(bytes, wanted) == 0;
}

static void formats(void)
{
    int ends[2];

    CHECK(pipe(ends) == 0);
    CHECK(dprintf(4, "%d %d %d|", 0, -1, 2147483647) == 16 && prints("0 -1 2147483647|", 16));
    CHECK(dprintf(4, "%ld %u %x", INT64_MIN, 4294967295u, 48879u) == 36);
    CHECK(prints("-9223372036854775808 4294967295 beef", 36));
    CHECK(dprintf(4, "%5d|%-5d|%05d|%3s|%-3s|", 42, 42, -42, "a", "b") == 26);
    CHECK(prints("   42|42   |-0042|  a|b  |", 26));
    CHECK(dprintf(4, "%c%%%s%p", 'x', "", (void *)0x1234) == 8 && prints("x%0x1234", 8));
    CHECK(dprintf(4, "%128d%s", 1, "more than one piece") == 147);
    CHECK(read(3, bytes, sizeof bytes) == 147);
    CHECK(dprintf(9, "nobody") == -1);
}

static void texts(void)
{
    CHECK(strlen("") == 0 && strlen("abc") == 3);
    CHECK(strcmp("a", "a") == 0 && strcmp("a", "b") < 0 && strcmp("ab", "a") > 0 && strcmp("\377", "a") > 0);
    CHECK(strncmp("abc", "abd", 2) == 0 && strncmp("abc", "abd", 3) < 0);
    CHECK(strchr("abc", 'c')[0] == 'c' && strchr("abc", 'd') == NULL && *strchr("abc", 0) == 0);
    CHECK(atoi("12") == 12 && atoi("-2147483648") == INT32_MIN && atoi("x") == 0);
    CHECK(is_number("-1") && !is_number("-") && !is_number("1x") && !is_number(""));
    memcpy(page, "0123456789", 11);
    memmove(page + 2, page, 8);
    CHECK(strcmp(page, "0101234567") == 0);
    memmove(page, page + 2, 9);
    CHECK(strcmp(page, "01234567") == 0);
    CHECK(memcmp("ab", "ac", 1) == 0 && memcmp("ab", "ac", 2) < 0);
}

static void allocations(void)
{
    enum { BLOCKS = 200 };
    static char *blocks[BLOCKS];

    for (int time = 0; time < 3; time++) {
        for (int place = 0; place < BLOCKS; place++) {
            blocks[place] = malloc(place * 13);
            CHECK(blocks[place] != NULL && ((uintptr_t)blocks[place] & 15) == 0);
            memset(blocks[place], place, place * 13);
        }
        for (int place = 0; place < BLOCKS; place++) {
            for (int at = 0; at < place * 13; at++)
                CHECK(blocks[place][at] == (char)place);
            free(blocks[place]);
        }
    }
    char *end = sbrk(0);
    free(malloc(100));
    CHECK(sbrk(0) == end); /* blocks are used again */
    CHECK(malloc(1L << 40) == NULL);
    CHECK(malloc(1 << 28) == NULL);
    sbrk(1); /* the memory's end is odd now */
    char *block = malloc(3 * PAGE_BYTES);
    CHECK(block != NULL && ((uintptr_t)block & 15) == 0);
    free(NULL);
}

/* All memory, given and taken back in small blocks, can be given in larger ones. */
static void freed_blocks_join(void)
{
    void **blocks = NULL;
    void **block;

    while ((block = malloc(10001)) != NULL) {
        *block = blocks;
        blocks = block;
    }
    CHECK(blocks != NULL);
    while (blocks != NULL) {
        block = blocks;
        blocks = *block;
        free(block);
    }
    block = malloc(20480);
    CHECK(block != NULL && malloc(1 << 20) != NULL);
}

static void blocks_grow(void)
{
    char *block = calloc(10, 10);

    CHECK(block != NULL && is_zero(block, 100));
    fill(block, 100);
    block = realloc(block, 5 * PAGE_BYTES);
    CHECK(block != NULL && is_filled(block, 0, 100));
    CHECK(realloc(block, 1L << 40) == NULL && is_filled(block, 0, 100));
    CHECK(calloc(1L << 40, 1L << 40) == NULL);
}

static void copies_of_texts(void)
{
    CHECK(strcmp(strcpy(page, "abc"), "abc") == 0 && strcmp(strcat(page, "de"), "abcde") == 0);
    CHECK(strncpy(page, "xy", 4) == page && memcmp(page, "xy\0\0e", 5) == 0);
    CHECK(strrchr("abcb", 'b')[1] == 0 && strrchr("abc", 'd') == NULL && *strrchr("abc", 0) == 0);
    CHECK(strcmp(strstr("the kernel", "he k"), "he kernel") == 0 && strstr("abc", "bd") == NULL);
}

static void lines_of_a_pipe(void)
{
    int ends[2];
    char line[8];

    CHECK(pipe(ends) == 0 && fputs("one\nseven letters\n", ends[1]) == 18);
    close(ends[1]);
    CHECK(strcmp(fgets(line, sizeof line, ends[0]), "one\n") == 0);
    CHECK(strcmp(fgets(line, sizeof line, ends[0]), "seven l") == 0);
    CHECK(strcmp(fgets(line, sizeof line, ends[0]), "etters\n") == 0);
    CHECK(fgets(line, sizeof line, ends[0]) == NULL);
}

struct test {
    const char *name;
    void (*run)(void);
};

#define TEST(name) {#name, name}

static const struct test tests[] = {
    TEST(statuses),
    TEST(pids),
    TEST(waits),
    TEST(waits_for_the_least),
    TEST(orphans),
    TEST(memories_are_apart),
    TEST(processes_have_a_limit),
    TEST(fork_needs_frames),
    TEST(kills),
    TEST(kills_whatever_it_waits_for),
    TEST(registers_stay),
    TEST(sleeps),
    TEST(grows),
    TEST(growth_has_limits),
    TEST(new_pages_are_zeros),
    TEST(lazy_growth),
    TEST(lazy_growth_has_limits),
    TEST(absent_pages_are_read_into),
    TEST(a_reader_with_absent_pages_waits),
    TEST(absent_pages_are_written_as_zeros),
    TEST(names_in_absent_pages),
    TEST(a_child_has_absent_pages_of_its_own),
    TEST(promises_are_broken),
    TEST(buffers_need_frames),
    TEST(a_status_needs_a_frame),
    TEST(faults),
    TEST(descriptors_have_a_limit),
    TEST(bad_descriptors),
    TEST(bad_buffers),
    TEST(names),
    TEST(files),
    TEST(files_end),
    TEST(a_child_shares_offsets),
    TEST(pipes),
    TEST(pipes_refuse),
    TEST(pipes_hold),
    TEST(a_writer_is_left_alone),
    TEST(readers_wait_for_all_writers),
    TEST(several_writers),
    TEST(execs),
    TEST(execs_are_refused),
    TEST(exec_makes_new_memory),
    TEST(exec_keeps_descriptors),
    TEST(unknown_calls),
    TEST(console_takes_long_writes),
    TEST(products_and_quotients),
    TEST(formats),
    TEST(texts),
    TEST(allocations),
    TEST(freed_blocks_join),
    TEST(blocks_grow),
    TEST(copies_of_texts),
    TEST(lines_of_a_pipe),
};

enum { TESTS = sizeof tests / sizeof tests[0] };

/* Runs one test in a child, and answers whether it passed. */
static int passes(const struct test *test)
{
    int status;
    int child = fork();

    if (child == 0) {
        test->run();
        exit(0);
    }
    while (wait(&status) != child)
        if (child < 0)
            fail("tests: there is no room for a process\n");
    printf("%s %s\n", status == 0 ? "ok    " : "FAILED", test->name);
    return status == 0;
}

static int is_asked(const char *name, int count, char *words[])
{
    for (int place = 1; place < count; place++)
        if (strcmp(words[place], name) == 0)
            return 1;
    return count == 1;
}

static int run_tests(int count, char *words[])
{
    int made = 0;
    int failed = 0;
    int pages = count_free_pages();

    for (int place = 0; place < TESTS; place++)
        if (is_asked(tests[place].name, count, words)) {
            made++;
            failed += !passes(&tests[place]);
        }
    int lost = pages - count_free_pages();
    if (lost != 0)
        printf("pages are lost: %d\n", lost);
    if (failed == 0 && lost == 0)
        printf("%d tests passed\n", made);
    else
        printf("%d of %d tests failed\n", failed, made);
    return failed != 0 || lost != 0;
}

int main(int count, char *words[])
{
    if (count >= 3 && strcmp(words[1], "exits-with") == 0)
        return atoi(words[2]) == count && words[count] == NULL ? count : 99;
    if (count == 2 && strcmp(words[1], "new-memory") == 0)
        return count_old_bytes();
    if (count == 2 && strcmp(words[1], "reads-from-5") == 0)
        return read(5, bytes, 100);
    return run_tests(count, words);
}

/* crash CAUSE: ends by a fault of this cause: 0, 2, 3, 4, 6, 12, 13 or 15. The kernel prints nothing: the trace has
   a line `fault PID CAUSE`, and the process's status is -1. */
#include "user.h"

static char page[PAGE_BYTES];

int main(int count, char *words[])
{
    int cause = count == 2 && is_number(words[1]) ? atoi(words[1]) : -1;
    char *text = (char *)main;
    char *nowhere = (char *)(1L << 37);
    int value;

    switch (cause) {
    case 0: /* a jump to an address that isn't a multiple of 4 */
        asm volatile("jalr 2(%0)" : : "r"(text) : "ra", "memory");
        break;
    case 2: /* a word that is no instruction of RV64I: mul a0, a0, a0 */
        asm volatile(".word 0x02a50533");
        break;
    case 3: /* ebreak */
        asm volatile("ebreak");
        break;
    case 4: /* a load of four bytes at an address that isn't a multiple of 4 */
        asm volatile("lw %0, 2(%1)" : "=r"(value) : "r"(page));
        break;
    case 6: /* a store of four bytes there */
        asm volatile("sw zero, 2(%0)" : : "r"(page) : "memory");
        break;
    case 12: /* a jump to a page that may not be executed */
        asm volatile("jalr %0" : : "r"(page) : "ra", "memory");
        break;
    case 13: /* a load where nothing is */
        asm volatile("lb %0, 0(%1)" : "=r"(value) : "r"(nowhere));
        break;
    case 15: /* a store to a page that may not be written */
        asm volatile("sb zero, 0(%0)" : : "r"(text) : "memory");
        break;
    default:
        fail("usage: crash 0, 2, 3, 4, 6, 12, 13 or 15\n");
    }
    return 0;
}

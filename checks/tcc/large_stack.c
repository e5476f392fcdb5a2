/* For torture.mjs: a test begins with a stack of 1 MB, since many want more than a page, and may abort. The words take that memory by sbrk,
   and go on with the function that follows. */
_Noreturn void exit(int status);
int main(int count, char **texts);

asm(".globl _start\n"
    "_start:\n"
    ".int 0x00050413\n" /* mv s0, a0 */
    ".int 0x00058493\n" /* mv s1, a1 */
    ".int 0x00100537\n" /* lui a0, 0x100 */
    ".int 0x00c00893\n" /* li a7, 12 */
    ".int 0x00000073\n" /* ecall */
    ".int 0x001002b7\n" /* lui t0, 0x100 */
    ".int 0x00550133\n" /* add sp, a0, t0 */
    ".int 0x00040513\n" /* mv a0, s0 */
    ".int 0x00048593\n" /* mv a1, s1 */);

void begin(int count, char **texts)
{
    exit(main(count, texts));
}

void abort(void)
{
    exit(134);
}

/* The compiler's own: in a program with a main it would look for a C library's. */
#ifdef __clang__
#include_next <stdint.h>
#else
#include <stdint-gcc.h>
#endif

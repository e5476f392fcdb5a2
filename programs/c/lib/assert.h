/* assert, which tells where it stood and ends the program with 1. */
#undef assert
#ifdef NDEBUG
#define assert(condition) ((void)0)
#else
_Noreturn void fail(const char *format, ...) __attribute__((format(printf, 1, 2)));
#define assert(condition) \
    ((condition) ? (void)0 : fail("%s:%d: assertion failed: %s\n", __FILE__, __LINE__, #condition))
#endif

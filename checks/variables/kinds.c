#include "user.h"
typedef unsigned char byte_t;
typedef struct { int a; } anonymous_t;
enum color { RED, GREEN = 5, BLUE = -3 };
enum flags { FA = 1, FB = 2, FC = 4 };
struct point { int x, y; };
struct node { char name[16]; int pid; struct node *next; enum color color; unsigned flag : 3; int little : 5; long long big; union { int i; char c[4]; } u; };
typedef int (*op_t)(int, int);
static int add(int a, int b) { return a + b; }
static int sub(int a, int b) { int d = a - b; return d; }
int counter = 7;
static const char *message = "hello\tworld\n";
char buffer[32] = "abc";
long table[4] = { 1, -2, 3, 4 };
int matrix[2][3] = { {1, 2, 3}, {4, 5, 6} };
struct node nodes[3] = { { "sh", 3, 0, GREEN, 5, -4, 123456789012LL, { 65 } }, { "init", 1, &nodes[0], BLUE, 2, 7, -1, { 0x01020304 } } };
op_t operations[2] = { add, sub };
volatile int sink;
_Bool yes = 1;
double real = 2.5; float small = 1.5f;
__attribute__((noinline)) int many(int a, long b, char c, unsigned char d, short e, const char *text, struct point p, struct node *n) {
  int total = a + (int)b + c + d + e;
  for (int i = 0; i < 3; i++) {
    int square = i * 2;
    total += square;
    { byte_t inner = (byte_t)(total & 255); sink = inner; total ^= inner; }
  }
  enum color mood = total > 3 ? GREEN : BLUE;
  total += p.x - p.y + n->pid + (int)mood + text[0];
  sink = total;
  return total;
}
static inline int helper(int v) { int w = v + 3; sink = w; return w << 1; }
__attribute__((noinline)) long recurse(int depth, long acc) {
  char local[8] = { 'x', 'y', 0 };
  long here = acc + depth + local[0];
  if (depth == 0) return here;
  long below = recurse(depth - 1, here);
  sink = (int)below;
  return below + local[1];
}
__attribute__((noinline)) unsigned long mix(unsigned long x, unsigned n) {
  unsigned long y = x;
  for (unsigned i = 0; i < n; i++) { y ^= y << 13; y ^= y >> 7; y ^= y << 17; sink = (int)helper((int)y); }
  return y;
}
int main(int argc, char **argv) {
  struct point p = { 3, -4 };
  struct point *pp = &p;
  int small_array[5] = { 1, 2, 3, 4, 5 };
  unsigned short us = 65535; signed char sc = -5; _Bool flag = argc > 1;
  const char *text = message;
  enum flags f = FB; op_t op = operations[argc & 1];
  int result = many(argc, 1234567890123L, 'q', 200, -7, text, p, &nodes[1]);
  result += op(result, small_array[2]);
  unsigned long m = mix(0x12345678, 6);
  long r = recurse(4, result);
  static int kept = 11; kept += result;
  for (int k = 0; k < 5; k++) { small_array[k] *= k; result += small_array[k]; }
  printf("%d %d %d\n", result, (int)m, (int)r);
  sink = us + sc + flag + pp->x + f + kept + argv[0][0];
  return 0;
}

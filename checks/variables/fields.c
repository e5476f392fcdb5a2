#include "user.h"
struct bits { char c : 3; signed char s : 4; unsigned char u : 5; _Bool b : 1; int i : 7; unsigned long long wide : 40; long long last : 60; char whole; };
struct inner { short a; struct { int x; char y : 2; }; union { int i; unsigned f : 9; }; };
struct __attribute__((packed)) tight { char c : 5; unsigned u : 13; int i : 20; char end; };
enum color { RED, GREEN = 5, BLUE = -3 };
struct named { enum color color : 4; enum color other; const char *text; };
struct bits field = { 3, -4, 17, 1, -30, 0x123456789AULL, -5, 'x' };
struct inner within = { -2, { 7, 1 }, { 300 } };
struct tight near = { 9, 4097, -70000, 'e' };
struct named name = { GREEN, BLUE, "text\001\"'\\" };
int left_out = 5;
struct bits left_out_too = { 1 };
char text[] = "a\tb\\\"'\177\200";
const char signs[] = { '\'', '"', '\\', 7, 27 };
const int matrix[2][2] = { { 1, 2 }, { 3, 4 } };
volatile int sink;
int counter = 3;
volatile const struct bits *pointer = &field;
__attribute__((noinline)) int by_value(struct bits it, struct inner other, struct tight third) {
  struct bits copy = it;
  signed char sign = it.s;
  char plain = it.c;
  unsigned char byte = it.u;
  copy.s = (signed char)(sign + 1);
  sink = copy.s + plain + byte + other.y + third.i;
  return sink;
}
__attribute__((noinline)) int constants(int n) {
  const int small[3] = { 1, 2, 3 };
  const struct tight fixed = { 1, 2, 3, 'q' };
  const double real = 2.5;
  const char word[] = "abc";
  static const long kept = 7;
  int sum = 0;
  for (int i = 0; i < n; i++) sum += small[i % 3] + fixed.i + ((const char *)&real)[7] + word[i & 1] + (int)kept;
  sink = sum;
  return sum;
}
__attribute__((noinline)) int shadows(int x) {
  int y = x;
  { int x = y + 1; sink = x; { int y = x + 1; sink = y; } }
  return y;
}
int *const pointers[2] = { &counter, 0 };
const volatile int *const volatile reached = &counter;
int main(int argc, char **argv) {
  struct bits mine = field;
  mine.c = (char)argc;
  int r = by_value(mine, within, near) + constants(argc + 3) + shadows(argc) + matrix[argc & 1][0] + signs[argc & 3];
  name.color = (enum color)(r & 5);
  printf("%d %d %d %s\n", r, (int)pointer->s, (int)name.color, text);
  sink = argv[0][0] + *pointers[argc & 1] + *reached;
  return 0;
}

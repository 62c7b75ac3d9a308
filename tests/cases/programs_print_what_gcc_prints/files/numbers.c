#include <stdio.h>

enum { small = -3, next, big = 1 << 20 };
typedef unsigned char byte;
struct inner { short a[3]; char c; };
struct outer { struct inner in[2]; struct outer *self; long last; };

static int table[] = {1, 2, 3, 4};
static const char *names[] = {"zero", "one", "two"};
static int *middle = &table[2];

int main(void) {
  struct outer o = {{{{1, 2, 3}, 'x'}, {{4}, 'y'}}, 0, -1};
  struct outer copy;
  byte wrapped = 250;
  short folded = 70000;
  unsigned u = -1;
  long shifted = 1L << 40;
  int i = 0, total = 0;
  o.self = &o;
  copy = *o.self;
  copy.in[1].a[2] = 9;
  wrapped += 10;
  printf("%d %d %d %d\n", small, next, big, (int)sizeof(struct outer));
  printf("%d %d %u %ld\n", wrapped, folded, u, shifted);
  printf("%d %d %c%c\n", o.in[1].a[2], copy.in[1].a[2], copy.in[0].c, copy.self->in[1].c);
  printf("%d %d %s %ld\n", *middle, middle[-1], names[2], (long)(middle - table));
  do {
    if (i == 3) { i++; continue; }
    if (i > 6) break;
    total += i & 1 ? i : -i;
    i++;
  } while (i < 100);
  printf("%d %d %d\n", i, total, -7 / 2 * 10 + -7 % 2);
  printf("%x|%5d|%-5d|%05d|%s|%c|%%\n", 48879, 42, 42, 42, "end", 'z');
  printf("%d %d %d\n", 5 > 3 && 2 > 4, 5 > 3 || 2 > 4, (1, 2, 3));
  for (unsigned char c = 250; c >= 250; c++) total++;
  printf("%d %d\n", total, ~0 ^ 0x0f);
  return total > 0 ? 7 : 8;
}

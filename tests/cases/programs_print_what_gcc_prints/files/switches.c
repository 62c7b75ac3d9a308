#include <stdio.h>

enum color { red, green = 4, blue };

static int falls(int n) {
  int total = 0;
  switch (n) {
  case 1: total += 1;
  case 2: total += 2; break;
  default: total += 100;
  case -3: total += 3;
  case 4: total += 4; break;
  case 5: return -5;
  }
  return total;
}

static int nested(int a, int b) {
  switch (a) {
  case 0:
    switch (b) {
    case 0: return 1;
    case 1: break;
    default: return 2;
    }
    a = 9;
    break;
  case green: a += b; break;
  case blue: ;
  }
  return a;
}

static void copy(char *to, const char *from, int count) {
  int turns = (count + 7) / 8;
  switch (count % 8) {
  case 0: do { *to++ = *from++;
  case 7:      *to++ = *from++;
  case 6:      *to++ = *from++;
  case 5:      *to++ = *from++;
  case 4:      *to++ = *from++;
  case 3:      *to++ = *from++;
  case 2:      *to++ = *from++;
  case 1:      *to++ = *from++;
          } while (--turns > 0);
  }
}

int main(void) {
  char text[32] = {0};
  int odd = 0;
  for (int n = -3; n <= 6; n++)
    printf("%d ", falls(n));
  printf("\n%d %d %d %d %d\n", nested(0, 0), nested(0, 1), nested(0, 7), nested(green, 3), nested(blue, 1));
  copy(text, "the whole of a device", 21);
  printf("%s\n", text);
  for (int i = 0; i < 10; i++) {
    switch (i % 3) {
    case 0: continue;
    case 1: if (i == 7) { break; case 2: odd++; }
    }
    odd += 10;
  }
  printf("%d\n", odd);
  switch (4294967297L) { case 1: printf("one\n"); break; case 4294967297L: printf("wide\n"); }
  switch (odd) default: printf("alone\n");
  return 0;
}

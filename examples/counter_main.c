#include <stdio.h>
int count(int step);
static int total = 1;
int main(void) {
  printf("%d\n", total);
  count(1);
  printf("%d\n", count(2));
  return 0;
}

#include <stdio.h>

int main(void) {
  int i = 0, sum = 0;
  while (i < 5) {
    i = i + 1;
    if (i % 2 == 1) {
      sum = sum + i;
    } else {
      printf("skipped\n");
    }
  }
  return sum;
}

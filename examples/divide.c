#include <stdio.h>

int main(void) {
  int left = 3;
  while (1) {
    left = left - 1;
    printf("step\n");
    if (100 / left < 0) return 1;
  }
}

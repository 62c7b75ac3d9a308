#include <stdio.h>
int main(void) {
  int least = -2147483647 - 1;
  printf("so far");
  return least % -1;
}

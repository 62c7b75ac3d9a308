#include <stdio.h>
char text[4] = "wall";
int main(void) {
  printf("before\n");
  printf("%s\n", (char *)8);
  return 0;
}

#include <string.h>
char from[8];
int main(void) {
  char to[8];
  memcpy(to, from, 8);
  memcpy(to, from, 1000000);
  return 0;
}

#include <stdlib.h>
int main(void) {
  char *a = malloc(32);
  free(a);
  free(0);
  free(a);
  return 0;
}

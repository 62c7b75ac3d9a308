#include <stdio.h>
int main(void) {
  printf("whole\nbegun");
  while (1)
    ;
}

#include <stdio.h>
#include <stdlib.h>
int count = 1;
int *self = &count;
static char name[] = "none";
int main(int argc, char **argv) {
  int *heap = malloc(2 * sizeof(int));
  heap[0] = count;
  count = count + *self;
  name[0] = 'd';
  heap[1] = count;
  printf("%d %d %s %s %d\n", heap[0], heap[1], name, argv[0], argv[argc] == 0);
  free(heap);
  return count;
}

#include <stdio.h>
int later[];
int twice;
int twice;
extern int other;
int later[3];
int *middle = &later[1];
static char word[] = "word";
char *rest = word + 2;
int other = 4;
int twice = 6;
struct point { int x; char tag[3]; long *to; };
long far = 9;
struct point points[2] = {{1, "ab", &far}, {2}};
int count(void) {
  static int times = 40;
  times = times + 1;
  return times;
}
int main(int argc, char **argv) {
  later[1] = 7;
  *points[0].to = *points[0].to + 1;
  printf("%d %d %s %d %d\n", *middle, twice, rest, other, (int)sizeof later);
  printf("%d %s %ld %d %d\n", points[0].x, points[0].tag, far, points[1].x, points[1].to == 0);
  points[1] = points[0];
  points[1] = points[1];
  printf("%d %s %d\n", points[1].x, points[1].tag, points[1].to == &far);
  count();
  printf("%d %d\n", count(), argc);
  {
    char bytes[12] = {0};
    int *inside = (int *)(bytes + 3);
    *inside = 16909060;
    printf("%d %d %d %d\n", bytes[3], bytes[4], bytes[6], *inside);
  }
  return 0;
}

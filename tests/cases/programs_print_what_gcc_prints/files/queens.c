#include <stdio.h>

/* How many ways there are to place n queens that don't attack each other. */

static int column[12];

static int is_free(int row, int at) {
  for (int i = 0; i < row; i++) {
    int apart = column[i] - at;
    if (apart == 0 || apart == row - i || apart == i - row)
      return 0;
  }
  return 1;
}

static int place(int row, int n) {
  int ways = 0;
  if (row == n)
    return 1;
  for (int at = 0; at < n; at++) {
    if (is_free(row, at)) {
      column[row] = at;
      ways += place(row + 1, n);
    }
  }
  return ways;
}

int main(void) {
  for (int n = 1; n <= 6; n++)
    printf("%d queens: %d ways\n", n, place(0, n));
  return 0;
}

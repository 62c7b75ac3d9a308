#include <stdio.h>
#include <string.h>

struct found {
  int count;
  int last;
};

static char composite[100];

int main(void) {
  struct found primes = {0, 0};
  memset(composite, 0, sizeof composite);
  for (int i = 2; i < 100; i++) {
    if (composite[i])
      continue;
    primes.count++;
    primes.last = i;
    for (int j = i * i; j < 100; j += i)
      composite[j] = 1;
  }
  printf("%d primes below 100, the last one %d\n", primes.count, primes.last);
  return 0;
}

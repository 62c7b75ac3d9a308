#include <stdio.h>
#include <stdlib.h>
#include <string.h>

struct node { int value; struct node *next; };
struct pair { int key; long weight; };

static int calls;
int unused_prototype(int a);

int ack(int m, int n) {
  calls++;
  if (m == 0) return n + 1;
  if (n == 0) return ack(m - 1, 1);
  return ack(m - 1, ack(m, n - 1));
}

static struct node *push(struct node *list, int value) {
  struct node *n = malloc(sizeof(struct node));
  if (!n) exit(3);
  n->value = value;
  n->next = list;
  return n;
}

long sum(struct node *list) { return list ? list->value + sum(list->next) : 0; }

void swap(struct pair *a, struct pair *b) { struct pair t = *a; *a = *b; *b = t; }

void quick(struct pair *p, int lo, int hi) {
  int i = lo, j = hi;
  int pivot = p[(lo + hi) / 2].key;
  while (i <= j) {
    while (p[i].key < pivot) i++;
    while (p[j].key > pivot) j--;
    if (i <= j) swap(&p[i++], &p[j--]);
  }
  if (lo < j) quick(p, lo, j);
  if (i < hi) quick(p, i, hi);
}

char narrow(int x) { return x; }
unsigned char widen(int x) { return x; }
int is_even(int n);
int is_odd(int n) { return n == 0 ? 0 : is_even(n - 1); }
int is_even(int n) { return n == 0 ? 1 : is_odd(n - 1); }
int counter(void) { static int n = 10; return n++; }

int main(int argc, char **argv) {
  struct pair p[8] = {{5, 1}, {3, 2}, {9, 3}, {1, 4}, {7, 5}, {2, 6}, {8, 7}, {0, 8}};
  struct node *list = 0;
  printf("ack %d\n", ack(2, 3));
  printf("calls %d\n", calls);
  for (int i = 0; i < 10; i++) list = push(list, i * i);
  printf("sum %ld\n", sum(list));
  quick(p, 0, 7);
  for (int i = 0; i < 8; i++) printf("%d:%ld ", p[i].key, p[i].weight);
  printf("\n%d %d %d %d\n", narrow(200), widen(300), is_even(10), is_odd(7));
  printf("%d\n", counter());
  printf("%d %s %d\n", counter(), argv[0][0] ? "named" : "none", argc);
  free(list);
  return 41 + is_even(2);
}

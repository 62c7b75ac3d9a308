int main(void) {
  int a[4];
  int i;
  for (i = 0; i < 4;
       a[3 - i] = 1 / (3 - i), i++) {
    a[i] = i;
  }
  return 0;
}

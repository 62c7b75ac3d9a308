int main(void) {
  int i = 3;
  while (
      6 / i) {
    i = i - 1;
  }
  return 0;
}

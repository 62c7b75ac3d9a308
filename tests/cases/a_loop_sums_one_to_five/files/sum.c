int main(void) {
  int i = 0;
  int s = 0;
  while (i < 5) {
    i = i + 1;
    s = s + i;
  }
  return s;
}


int half(int n, int d) {
  int k = n;
  return k / d;
}

int deep(int n) {
  int room[512];
  room[n & 511] = n;
  return deep(n + 1) + room[0];
}
int main(void) { return deep(0); }

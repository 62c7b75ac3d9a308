int deep(int n) {
  if (n == 0) {
    return 0;
  }
  return 1 +
         deep(n - 1);
}
int main(void) {
  int a = deep(254);
  return a + deep(255);
}

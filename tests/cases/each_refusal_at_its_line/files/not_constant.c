int main(void) {
  int a = 2;
  static int b = a;
  return b;
}

int main(void) {
  int a;
  long a;
  return 0;
}

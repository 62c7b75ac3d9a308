int main(void) {
  int a;
  long *p = &a;
  return 0;
}

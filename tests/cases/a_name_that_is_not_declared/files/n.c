int main(void) {
  int i = 1;
  { int k = 2; }
  return i + k;
}

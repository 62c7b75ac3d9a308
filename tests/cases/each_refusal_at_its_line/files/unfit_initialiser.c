int main(void) {
  int a[2] = 1;
  return a[0];
}

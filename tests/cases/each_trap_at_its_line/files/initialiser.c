int main(void) {
  int z = 0;
  int a[3] = {1,
              2,
              3 % z};
  return a[0];
}

int main(void) {
  int least = -2147483647 - 1;
  int a = 5 % 3;
  return least %
         (a - 3);
}

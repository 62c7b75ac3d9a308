int main(void) {
  long one = 1;
  one = one << 63;
  one = one >>
        64;
  return 0;
}

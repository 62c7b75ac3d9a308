struct s { int a; };
int main(void) {
  struct s x;
  if (x) return 1;
  return 0;
}

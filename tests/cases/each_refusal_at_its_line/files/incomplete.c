struct s;
int main(void) {
  struct s a;
  return 0;
}

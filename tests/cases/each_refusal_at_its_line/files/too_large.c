int main(void) {
  char a[1048577];
  return a[0];
}

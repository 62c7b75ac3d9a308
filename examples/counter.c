static int total;
int count(int step) {
  total += step;
  return total;
}

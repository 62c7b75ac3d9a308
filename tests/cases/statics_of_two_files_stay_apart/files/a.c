int fb(void); static int n; int main(void) { n = n + 1; return fb() * 10 + n; }

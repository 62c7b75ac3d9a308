static int n; int fb(void) { n = n + 2; return n; }

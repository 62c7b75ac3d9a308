int half(int n, int d);
int main(void) { return half(1, 0); }

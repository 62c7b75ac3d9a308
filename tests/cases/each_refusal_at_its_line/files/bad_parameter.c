struct s { int a; };
int f(struct s x);
int main(void) { return 0; }

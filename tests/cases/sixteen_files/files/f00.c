int f1(void);
int main(void) { return f1(); }

static int a;
extern int b;
int c;
static int c;
int main(void) { return 0; }

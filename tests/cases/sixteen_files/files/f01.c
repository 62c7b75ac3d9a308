int f2(void);
static int own = 1;
int f1(void) { return f2() + own; }

int f3(void);
static int own = 1;
int f2(void) { return f3() + own; }

int f5(void);
static int own = 1;
int f4(void) { return f5() + own; }

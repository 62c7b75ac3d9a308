int f6(void);
static int own = 1;
int f5(void) { return f6() + own; }

int f15(void);
static int own = 1;
int f14(void) { return f15() + own; }

int f9(void);
static int own = 1;
int f8(void) { return f9() + own; }

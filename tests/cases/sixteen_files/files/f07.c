int f8(void);
static int own = 1;
int f7(void) { return f8() + own; }

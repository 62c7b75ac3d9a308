int f10(void);
static int own = 1;
int f9(void) { return f10() + own; }

int f14(void);
static int own = 1;
int f13(void) { return f14() + own; }

int f12(void);
static int own = 1;
int f11(void) { return f12() + own; }

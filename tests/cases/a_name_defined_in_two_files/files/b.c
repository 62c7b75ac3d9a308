

int n = 2;

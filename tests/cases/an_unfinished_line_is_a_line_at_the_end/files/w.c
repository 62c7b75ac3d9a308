#include <stdio.h>
int main(void) {
	printf("a\n\nb");
	printf("c");
	return 2147483647;
}

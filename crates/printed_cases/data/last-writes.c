#pragma scop
x = 1; x = 2; y = x; z = x;
#pragma endscop

#pragma scop
A = B;
#pragma endscop

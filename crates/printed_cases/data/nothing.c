#pragma scop
for (i = 1; i <= 0; i++) A[i] = B[i];
#pragma endscop

#pragma scop
for (i = 2; i <= N; i++) A[i] = B[i];
#pragma endscop

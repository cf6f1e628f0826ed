#pragma scop
for (i = 0; i < N; i++) A[i] = B[i];
#pragma endscop

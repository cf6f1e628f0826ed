#pragma scop
for (i = -N; i <= N; i++) A[i] = B[i];
#pragma endscop

#pragma scop
for (i = 0; i < N; i++) for (j = 0; j <= i; j++) A[i][j] = B[i][j];
#pragma endscop

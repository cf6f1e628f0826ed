#pragma scop
for (i = 0; i < N; i++) for (j = -i; j <= N + i; j++) A[i][j] = B[i][j];
#pragma endscop

#pragma scop
for (i = 0; i < N; i++) for (j = 0; j <= i; j++) for (k = 0; k <= j; k++) A[i][j][k] = B[i][j][k];
#pragma endscop

#pragma scop
for (i = 0; i < N; i++) for (j = i - 1; j <= i + 1; j++) A[i][j] = B[i][j];
#pragma endscop

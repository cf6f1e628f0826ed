#pragma scop
for (i = 0; i < N; i++) for (j = 0; j <= i; j++) for (k = 0; k <= j; k++) for (l = 0; l <= k; l++) A[i][j][k][l] = B[i][j][k][l];
#pragma endscop

#pragma scop
for (i = 0; i < N; i++) for (j = i; j <= i + 2; j++) for (k = j - i; k <= N + 1; k++) for (l = 0; l <= 1; l++) A[i][j][k][l] = B[i][j][k][l];
#pragma endscop

#pragma scop
for (i = 0; i < N; i++) for (j = 0; j < N; j++) for (k = 0; k < N; k++)
for (l = 0; l < N; l++) B[i][j][k][l] = A[i][j][k][l];
#pragma endscop

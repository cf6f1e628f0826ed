#pragma scop
for (i = 0; i < N; i++) {
  x[i] = b[i];
  for (j = 0; j < i; j++)
    x[i] -= L[i][j] * x[j];
  x[i] /= L[i][i];
}
#pragma endscop

#pragma iolb assume N >= 2 && D >= 1
#pragma scop
for (i = 0; i < N; i++) {
  for (j = 0; j < N; j++) {
    X[i][j] = 0.0;
    for (k = 0; k < D; k++)
      X[i][j] += Q[i][k] * K[j][k];
  }
  L[i] = 0.0;
  for (j = 0; j < N; j++) {
    P[i][j] = exp(X[i][j]);
    L[i] += P[i][j];
  }
  for (k = 0; k < D; k++)
    O[i][k] = 0.0;
  for (j = 0; j < N; j++)
    for (k = 0; k < D; k++)
      O[i][k] += P[i][j] * V[j][k];
  for (k = 0; k < D; k++)
    O[i][k] /= L[i];
}
#pragma endscop

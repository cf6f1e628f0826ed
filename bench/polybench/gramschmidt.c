#pragma scop
for (k = 0; k < N; k++) {
  nrm = 0.0;
  for (i = 0; i < M; i++)
    nrm += A[i][k] * A[i][k];
  R[k][k] = sqrt(nrm);
  for (i = 0; i < M; i++)
    Q[i][k] = A[i][k] / R[k][k];
  for (j = k + 1; j < N; j++) {
    R[k][j] = 0.0;
    for (i = 0; i < M; i++)
      R[k][j] += Q[i][k] * A[i][j];
    for (i = 0; i < M; i++)
      A[i][j] = A[i][j] - Q[i][k] * R[k][j];
  }
}
#pragma endscop

#pragma iolb assume N >= 2 && M >= 2
#pragma scop
for (i = 0; i < N - 1; i++)
  for (j = 0; j < M - 1; j++) {
    gx[i][j] = a[i][j+1] - a[i][j];
    gy[i][j] = a[i+1][j] - a[i][j];
  }
#pragma endscop

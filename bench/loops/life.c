#pragma iolb assume N >= 3
#pragma scop
for (i = 1; i < N - 1; i++)
  for (j = 1; j < N - 1; j++)
    b[i][j] = rule(a[i][j], a[i-1][j-1] + a[i-1][j] + a[i-1][j+1] + a[i][j-1] + a[i][j+1] + a[i+1][j-1] + a[i+1][j] + a[i+1][j+1]);
#pragma endscop

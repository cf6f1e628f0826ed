#pragma iolb assume N >= 3
#pragma scop
for (i = 1; i < N - 1; i++)
  n[i] = 2*u[i] - o[i] + u[i-1] - 2*u[i] + u[i+1];
#pragma endscop

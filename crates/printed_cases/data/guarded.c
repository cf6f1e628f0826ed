#pragma scop
for (i = 0; i < N; i++) if (i > 0 && 2*i <= N) A[i] = B[i];
#pragma endscop

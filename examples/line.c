#pragma scop
for (int i = 0; i < N; i++)
    B[i] = A[i];
#pragma endscop

#pragma scop
for (i = 0; i < W; i++)
  for (j = 0; j < H; j++)
    imgOut[i][j] = c1 * (y1[i][j] + y2[i][j]);
for (j = 0; j < H; j++) {
  tm1 = 0.0;
  ym1 = 0.0;
  ym2 = 0.0;
  for (i = 0; i < W; i++) {
    y1[i][j] = a5 * imgOut[i][j] + a6 * tm1 + b1 * ym1 + b2 * ym2;
    tm1 = imgOut[i][j];
    ym2 = ym1;
    ym1 = y1[i][j];
  }
}
for (j = 0; j < H; j++) {
  tp1 = 0.0;
  tp2 = 0.0;
  yp1 = 0.0;
  yp2 = 0.0;
  for (i = W - 1; i >= 0; i--) {
    y2[i][j] = a7 * tp1 + a8 * tp2 + b1 * yp1 + b2 * yp2;
    tp2 = tp1;
    tp1 = imgOut[i][j];
    yp2 = yp1;
    yp1 = y2[i][j];
  }
}
for (i = 0; i < W; i++)
  for (j = 0; j < H; j++)
    imgOut[i][j] = c2 * (y1[i][j] + y2[i][j]);
#pragma endscop

/* Scales an array: the function in each other image. */
void scale(float *a, float by, int n) {
  for (int i = 0; i < n; i++)
    a[i] *= by;
}

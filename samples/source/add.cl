// Adds one array to another: the kernel in each AMD image.
__kernel void add(__global float *a, __global const float *b, int n) {
  int i = __builtin_amdgcn_workitem_id_x();
  if (i < n)
    a[i] += b[i];
}

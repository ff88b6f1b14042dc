// Adds one array to another: the kernel in each code object that clang's driver linked.
__attribute__((global)) void add(float *a, const float *b, int n) {
  int i = __builtin_amdgcn_workitem_id_x();
  if (i < n)
    a[i] += b[i];
}

{
  #pragma omp target
  { x = 1; }
}

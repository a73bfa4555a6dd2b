int main(void) {
#pragma omp target teams distribute num_teams(0)
for (uint64_t i = 0; i < 4; i += 1) { }
}

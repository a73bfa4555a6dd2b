/*
Vector addition, many times, on arrays that stay on the device between kernels.
*/
#include <stdio.h>
#include <stdlib.h>
#include <stdbool.h>
#define N 100
#define C 512

int init(int *, int *);
int add(int *, int *);
int check(const int *);

int init(int *b, int *c){
    for(int i=0; i<C; i++){
        b[i]=i % 7;
        c[i]=0;
    }
    return 0;
}

int add(int *b, int *c){
    #pragma omp target enter data map(to:b[0:C],c[0:C]) device(0)
    for(int n=0; n<N; n++){
        #pragma omp target teams distribute parallel for
        for(int i=0; i<C; i++){
            c[i]+=b[i] > 3 ? b[i] : 1;
        }
    }
    #pragma omp target exit data map(from:c[0:C]) map(release:b[0:C]) device(0)
    return 0;
}

int check(const int *c){
    int wrong = 0;
    for(int i=0; i<C; i++){
        int right = i % 7 > 3 ? i % 7 : 1;
        if(c[i] != N * right) wrong++;
    };
    return wrong;
}

int main(){
    int *b=malloc(C*sizeof(int));
    int *c=malloc(C*sizeof(int));
    bool failed = false;
    int sum = 0;
    init(b, c);
    add(b, c);
    failed = check(c) != 0;
    for(int i=0; i<C; i++) sum += c[i];
    printf("%d\n", failed);
    printf("%d\n", sum);
    free(b);
    free(c);
    return failed;
}

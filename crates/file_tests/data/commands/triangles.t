# loops whose bounds name loops around
$ ompc run triangles.c
0
6
25
64
130
230
106
107
108
109
110
111
406
407
408

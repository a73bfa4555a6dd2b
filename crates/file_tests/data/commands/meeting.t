# turns of a loop that may run in any order and meet: why, by what change they do not, and a run that goes wrong

# a sweep in place
$ ompc explain sweep_in_place.c
sweep_in_place.c:4:1: error: two turns of this loop, which may run in any order, meet on A[1] [E510]
    4 | #pragma omp target teams distribute parallel for map(tofrom: A)
      | ^~~~~~~~~~~~~~~~~~~~~~~~~~~~~~~~~~~~~~~~~~~~~~~~~~~~~~~~~~~~~~~
sweep_in_place.c:5:39: note: A[1] is written here (in the turn i = 1)
    5 | for (uint64_t i = 1; i < 5; i += 1) { A[i] = (A[i - 1] + A[i + 1]) / 2; }
      |                                       ^~~~
sweep_in_place.c:5:47: note: A[1] is read here (in the turn i = 2)
    5 | for (uint64_t i = 1; i < 5; i += 1) { A[i] = (A[i - 1] + A[i + 1]) / 2; }
      |                                               ^~~~~~~~
sweep_in_place.c:5:39: help: let this write to another array: then other turns read what A has before the loop
    5 | for (uint64_t i = 1; i < 5; i += 1) { A[i] = (A[i - 1] + A[i + 1]) / 2; }
      |                                       ^~~~
sweep_in_place.c:4:1: help: as a `target` alone it has its turns in order
    4 | #pragma omp target teams distribute parallel for map(tofrom: A)
      | ^~~~~~~~~~~~~~~~~~~~~~~~~~~~~~~~~~~~~~~~~~~~~~~~~~~~~~~~~~~~~~~
sweep_in_place.c:4:1: help: this change is accepted
--- sweep_in_place.c
+++ sweep_in_place.c
@@ -4 +4 @@
-#pragma omp target teams distribute parallel for map(tofrom: A)
+#pragma omp target map(tofrom: A)
[1]
$ ompc fix sweep_in_place.c
uint64_t A[6];
int main(void) {
for (uint64_t i = 0; i < 6; i += 1) { A[i] = i * i * i; }
#pragma omp target map(tofrom: A)
for (uint64_t i = 1; i < 5; i += 1) { A[i] = (A[i - 1] + A[i + 1]) / 2; }
for (uint64_t i = 0; i < 6; i += 1) { print(A[i]); }
}
$ ompc witness sweep_in_place.c
choices
turns 1
output 0
output 4
output 14
output 39
output 82
output 125
erased output 0
erased output 4
erased output 15
erased output 39
erased output 82
erased output 125
first difference line 3: 14, erased 15
ompc step --fine sweep_in_place.c --turns 1

# a sum in one cell
$ ompc explain sum_in_one_cell.c
sum_in_one_cell.c:5:1: error: two turns of this loop, which may run in any order, meet on S[0] [E510]
    5 | #pragma omp target teams distribute parallel for map(to: A) map(tofrom: S)
      | ^~~~~~~~~~~~~~~~~~~~~~~~~~~~~~~~~~~~~~~~~~~~~~~~~~~~~~~~~~~~~~~~~~~~~~~~~~
sum_in_one_cell.c:6:39: note: S[0] is written here (in the turn i = 0)
    6 | for (uint64_t i = 0; i < 4; i += 1) { S[0] = S[0] + A[i]; }
      |                                       ^~~~
sum_in_one_cell.c:6:46: note: S[0] is read here (in the turn i = 1)
    6 | for (uint64_t i = 0; i < 4; i += 1) { S[0] = S[0] + A[i]; }
      |                                              ^~~~
sum_in_one_cell.c:5:1: help: as a `target` alone it has its turns in order
    5 | #pragma omp target teams distribute parallel for map(to: A) map(tofrom: S)
      | ^~~~~~~~~~~~~~~~~~~~~~~~~~~~~~~~~~~~~~~~~~~~~~~~~~~~~~~~~~~~~~~~~~~~~~~~~~
sum_in_one_cell.c:5:1: help: this change is accepted
--- sum_in_one_cell.c
+++ sum_in_one_cell.c
@@ -5 +5 @@
-#pragma omp target teams distribute parallel for map(to: A) map(tofrom: S)
+#pragma omp target map(to: A) map(tofrom: S)
[1]
$ ompc explain sum_in_one_cell.c --format json
{
  "accepted": false,
  "diagnostics": [
    {
      "array": "S",
      "cell": 0,
      "code": "E510",
      "column": 1,
      "end_column": 75,
      "end_line": 5,
      "item": 1,
      "line": 5,
      "loops": [],
      "message": "two turns of this loop, which may run in any order, meet on S[0]",
      "notes": [
        {
          "column": 39,
          "end_column": 43,
          "end_line": 6,
          "kind": "note",
          "line": 6,
          "loops": [
            {
              "name": "i",
              "value": 0
            }
          ],
          "message": "S[0] is written here (in the turn i = 0)"
        },
        {
          "column": 46,
          "end_column": 50,
          "end_line": 6,
          "kind": "note",
          "line": 6,
          "loops": [
            {
              "name": "i",
              "value": 1
            }
          ],
          "message": "S[0] is read here (in the turn i = 1)"
        },
        {
          "column": 1,
          "end_column": 75,
          "end_line": 5,
          "kind": "help",
          "line": 5,
          "loops": [],
          "message": "as a `target` alone it has its turns in order"
        }
      ],
      "rule": "turns of a loop that may run in any order share no cell that one of them writes"
    }
  ],
  "file": "sum_in_one_cell.c",
  "fixes": [
    {
      "edits": [
        {
          "column": 1,
          "end_column": 75,
          "end_line": 5,
          "line": 5,
          "text": "#pragma omp target map(to: A) map(tofrom: S)"
        }
      ],
      "message": "this change is accepted"
    }
  ],
  "more": 0,
  "tried": null,
  "version": 1,
  "warnings": []
}
[1]
$ ompc explain sum_in_one_cell.c --format sarif
{
  "$schema": "https://docs.oasis-open.org/sarif/sarif/v2.1.0/errata01/os/schemas/sarif-schema-2.1.0.json",
  "runs": [
    {
      "columnKind": "unicodeCodePoints",
      "properties": {
        "more": 0
      },
      "results": [
        {
          "fixes": [
            {
              "artifactChanges": [
                {
                  "artifactLocation": {
                    "uri": "sum_in_one_cell.c"
                  },
                  "replacements": [
                    {
                      "deletedRegion": {
                        "startColumn": 1,
                        "startLine": 5
                      },
                      "insertedContent": {
                        "text": "#pragma omp target map(to: A) map(tofrom: S)"
                      }
                    }
                  ]
                }
              ],
              "description": {
                "text": "this change is accepted"
              }
            }
          ],
          "level": "error",
          "locations": [
            {
              "physicalLocation": {
                "artifactLocation": {
                  "uri": "sum_in_one_cell.c"
                },
                "region": {
                  "endColumn": 75,
                  "endLine": 5,
                  "startColumn": 1,
                  "startLine": 5
                }
              }
            }
          ],
          "message": {
            "text": "two turns of this loop, which may run in any order, meet on S[0]"
          },
          "properties": {
            "array": "S",
            "cell": 0,
            "item": 1,
            "loops": []
          },
          "relatedLocations": [
            {
              "id": 0,
              "message": {
                "text": "note: S[0] is written here (in the turn i = 0)"
              },
              "physicalLocation": {
                "artifactLocation": {
                  "uri": "sum_in_one_cell.c"
                },
                "region": {
                  "endColumn": 43,
                  "endLine": 6,
                  "startColumn": 39,
                  "startLine": 6
                }
              },
              "properties": {
                "loops": [
                  {
                    "name": "i",
                    "value": 0
                  }
                ]
              }
            },
            {
              "id": 1,
              "message": {
                "text": "note: S[0] is read here (in the turn i = 1)"
              },
              "physicalLocation": {
                "artifactLocation": {
                  "uri": "sum_in_one_cell.c"
                },
                "region": {
                  "endColumn": 50,
                  "endLine": 6,
                  "startColumn": 46,
                  "startLine": 6
                }
              },
              "properties": {
                "loops": [
                  {
                    "name": "i",
                    "value": 1
                  }
                ]
              }
            },
            {
              "id": 2,
              "message": {
                "text": "help: as a `target` alone it has its turns in order"
              },
              "physicalLocation": {
                "artifactLocation": {
                  "uri": "sum_in_one_cell.c"
                },
                "region": {
                  "endColumn": 75,
                  "endLine": 5,
                  "startColumn": 1,
                  "startLine": 5
                }
              },
              "properties": {
                "loops": []
              }
            }
          ],
          "ruleId": "E510"
        }
      ],
      "tool": {
        "driver": {
          "name": "ompc",
          "rules": [
            {
              "id": "E510",
              "shortDescription": {
                "text": "turns of a loop that may run in any order share no cell that one of them writes"
              }
            }
          ],
          "version": "0.1.0"
        }
      }
    }
  ],
  "version": "2.1.0"
}
[1]
$ ompc fix sum_in_one_cell.c
uint64_t A[4];
uint64_t S[1];
int main(void) {
for (uint64_t i = 0; i < 4; i += 1) { A[i] = 2 * i + 1; }
#pragma omp target map(to: A) map(tofrom: S)
for (uint64_t i = 0; i < 4; i += 1) { S[0] = S[0] + A[i]; }
print(S[0]);
}
$ ompc witness sum_in_one_cell.c
choices
turns 1
output 15
erased output 16
first difference line 1: 15, erased 16
ompc step --fine sum_in_one_cell.c --turns 1

# a product of a matrix and a vector: the turns of the outer loop alone are independent
$ ompc explain product_collapsed.c
product_collapsed.c:7:1: error: two turns of these loops, which may run in any order, meet on Y[0] [E510]
    7 | #pragma omp target teams distribute parallel for collapse(2) map(to: A, X) map(tofrom: Y)
      | ^~~~~~~~~~~~~~~~~~~~~~~~~~~~~~~~~~~~~~~~~~~~~~~~~~~~~~~~~~~~~~~~~~~~~~~~~~~~~~~~~~~~~~~~~
product_collapsed.c:9:41: note: Y[0] is written here (in the turn i = 0, k = 0)
    9 |   for (uint64_t k = 0; k < 3; k += 1) { Y[i] = Y[i] + A[3 * i + k] * X[k]; }
      |                                         ^~~~
product_collapsed.c:9:48: note: Y[0] is read here (in the turn i = 0, k = 1)
    9 |   for (uint64_t k = 0; k < 3; k += 1) { Y[i] = Y[i] + A[3 * i + k] * X[k]; }
      |                                                ^~~~
product_collapsed.c:7:1: help: with a smaller `collapse`, or with none, fewer loops are in any order
    7 | #pragma omp target teams distribute parallel for collapse(2) map(to: A, X) map(tofrom: Y)
      | ^~~~~~~~~~~~~~~~~~~~~~~~~~~~~~~~~~~~~~~~~~~~~~~~~~~~~~~~~~~~~~~~~~~~~~~~~~~~~~~~~~~~~~~~~
product_collapsed.c:7:1: help: as a `target` alone it has its turns in order
product_collapsed.c:7:1: help: this change is accepted
--- product_collapsed.c
+++ product_collapsed.c
@@ -7 +7 @@
-#pragma omp target teams distribute parallel for collapse(2) map(to: A, X) map(tofrom: Y)
+#pragma omp target teams distribute parallel for map(to: A, X) map(tofrom: Y)
[1]
$ ompc fix product_collapsed.c
uint64_t A[9];
uint64_t X[3];
uint64_t Y[3];
int main(void) {
for (uint64_t i = 0; i < 9; i += 1) { A[i] = i + 1; }
for (uint64_t i = 0; i < 3; i += 1) { X[i] = 10 - i; }
#pragma omp target teams distribute parallel for map(to: A, X) map(tofrom: Y)
for (uint64_t i = 0; i < 3; i += 1) {
  for (uint64_t k = 0; k < 3; k += 1) { Y[i] = Y[i] + A[3 * i + k] * X[k]; }
}
for (uint64_t i = 0; i < 3; i += 1) { print(Y[i]); }
}
$ ompc witness product_collapsed.c
choices
turns 1
output 42
output 133
output 214
erased output 52
erased output 133
erased output 214
first difference line 1: 42, erased 52
ompc step --fine product_collapsed.c --turns 1

# the turns of the loop inside alone are
$ ompc explain rows_one_after_another.c
rows_one_after_another.c:4:1: error: two turns of this loop, which may run in any order, meet on A[4] [E510]
    4 | #pragma omp target teams distribute parallel for num_teams(2)
      | ^~~~~~~~~~~~~~~~~~~~~~~~~~~~~~~~~~~~~~~~~~~~~~~~~~~~~~~~~~~~~
rows_one_after_another.c:6:41: note: A[4] is written here (in the turn i = 1, j = 0)
    6 |   for (uint64_t j = 0; j < 4; j += 1) { A[4 * i + j] = A[4 * i - 4 + j] + 1; }
      |                                         ^~~~~~~~~~~~
rows_one_after_another.c:6:56: note: A[4] is read here (in the turn i = 2, j = 0)
    6 |   for (uint64_t j = 0; j < 4; j += 1) { A[4 * i + j] = A[4 * i - 4 + j] + 1; }
      |                                                        ^~~~~~~~~~~~~~~~
rows_one_after_another.c:6:41: help: let this write to another array: then other turns read what A has before the loop
    6 |   for (uint64_t j = 0; j < 4; j += 1) { A[4 * i + j] = A[4 * i - 4 + j] + 1; }
      |                                         ^~~~~~~~~~~~
rows_one_after_another.c:4:1: help: as a `target` alone it has its turns in order
    4 | #pragma omp target teams distribute parallel for num_teams(2)
      | ^~~~~~~~~~~~~~~~~~~~~~~~~~~~~~~~~~~~~~~~~~~~~~~~~~~~~~~~~~~~~
rows_one_after_another.c:4:1: help: this change is accepted
--- rows_one_after_another.c
+++ rows_one_after_another.c
@@ -4 +4 @@
-#pragma omp target teams distribute parallel for num_teams(2)
+#pragma omp target data map(tofrom: A)
@@ -5,0 +6 @@
+  #pragma omp target teams distribute parallel for num_teams(2)
[1]
$ ompc fix rows_one_after_another.c
uint64_t A[12];
int main(void) {
for (uint64_t i = 0; i < 12; i += 1) { A[i] = i * i; }
#pragma omp target data map(tofrom: A)
for (uint64_t i = 1; i < 3; i += 1) {
  #pragma omp target teams distribute parallel for num_teams(2)
  for (uint64_t j = 0; j < 4; j += 1) { A[4 * i + j] = A[4 * i - 4 + j] + 1; }
}
for (uint64_t i = 8; i < 12; i += 1) { print(A[i]); }
}
$ ompc witness rows_one_after_another.c
choices
turns 1
output 17
output 3
output 6
output 11
erased output 2
erased output 3
erased output 6
erased output 11
first difference line 1: 17, erased 2
ompc step --fine rows_one_after_another.c --turns 1

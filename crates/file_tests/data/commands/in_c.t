# expressions that have another value in C, or none
$ ompc explain seven_in_c.c
seven_in_c.c: accepted
seven_in_c.c:10:19: warning: in C this has type `int`, and may be negative [W601]
   10 |     print((a < b) - 1 > 0);
      |                   ^
seven_in_c.c:10:19: help: make an operand a `uint64_t`: `1ul`
seven_in_c.c:11:14: warning: in C this has type `int`, and is -7; here it is 18446744073709551609 [W601]
   11 |     print((0 - 7) / 2);
      |              ^
seven_in_c.c:11:14: help: make an operand a `uint64_t`: `0ul`
seven_in_c.c:12:11: warning: in C this has type `int`, and is -1; here it is 18446744073709551615 [W601]
   12 |     print(~0 >> 60);
      |           ^
seven_in_c.c:12:11: help: make an operand a `uint64_t`: `0ul`
seven_in_c.c:13:13: warning: in C this has type `int`, and is undefined; here it is 1099511627776 [W601]
   13 |     print(1 << 40);
      |             ^~
seven_in_c.c:13:13: help: make an operand a `uint64_t`: `1ul`
seven_in_c.c:14:17: warning: in C this has type `int`, and is undefined; here it is 4294967296 [W601]
   14 |     print(65536 * 65536);
      |                 ^
seven_in_c.c:14:17: help: make an operand a `uint64_t`: `65536ul`
seven_in_c.c:15:22: warning: in C this has type `int`, and is undefined; here it is 2147483648 [W601]
   15 |     print(2147483647 + 1);
      |                      ^
seven_in_c.c:15:22: help: make an operand a `uint64_t`: `2147483647ul`
seven_in_c.c:16:11: warning: in C this has type `int`, and is -1; here it is 18446744073709551615 [W601]
   16 |     print(~0 < 1);
      |           ^
seven_in_c.c:16:11: help: make an operand a `uint64_t`: `0ul`

# thirty-seven more; of the last twelve nothing is told
$ ompc explain more_in_c.c
more_in_c.c: accepted
more_in_c.c:10:13: warning: in C this has type `int`, and is undefined; here it is 2147483648 [W601]
   10 |     print(1 << 31);
      |             ^~
more_in_c.c:10:13: help: make an operand a `uint64_t`: `1ul`
more_in_c.c:11:20: warning: in C this has type `int`, and is undefined [W601]
   11 |     print((a == b) << 33);
      |                    ^~
more_in_c.c:11:20: help: make an operand a `uint64_t`: `(0ul + ..)`
more_in_c.c:12:19: warning: in C this has type `int`, and may be undefined, since it may pass that type [W601]
   12 |     print((b < a) << 31);
      |                   ^~
more_in_c.c:12:19: help: make an operand a `uint64_t`: `(0ul + ..)`
more_in_c.c:13:22: warning: in C this has type `long`, and is undefined; here it is 0 [W601]
   13 |     print(4294967296 * 4294967296);
      |                      ^
more_in_c.c:13:22: help: make an operand a `uint64_t`: `4294967296ul`
more_in_c.c:14:31: warning: in C this has type `long`, and is undefined; here it is 9223372036854775808 [W601]
   14 |     print(9223372036854775807 + 1);
      |                               ^
more_in_c.c:14:31: help: make an operand a `uint64_t`: `9223372036854775807ul`
more_in_c.c:15:11: warning: in C this has type `long`, and is -2147483649; here it is 18446744071562067967 [W601]
   15 |     print(~2147483648);
      |           ^
more_in_c.c:15:11: help: make an operand a `uint64_t`: `2147483648ul`
more_in_c.c:16:14: warning: in C this has type `int`, and is -1; here it is 18446744073709551615 [W601]
   16 |     print((0 - 1) | 1);
      |              ^
more_in_c.c:16:14: help: make an operand a `uint64_t`: `0ul`
more_in_c.c:17:18: warning: in C this has type `int`, and is undefined; here it is 1099511627776 [W601]
   17 |     print(a && 1 << 40);
      |                  ^~
more_in_c.c:17:18: help: make an operand a `uint64_t`: `1ul`
more_in_c.c:18:18: warning: in C this has type `int`, and is -1; here it is 18446744073709551615 [W601]
   18 |     print(a + (0 - 1));
      |                  ^
more_in_c.c:18:18: help: make an operand a `uint64_t`: `0ul`
more_in_c.c:19:15: warning: in C this has type `int`, and is -1; here it is 18446744073709551615 [W601]
   19 |     print(A[1 - 2 & 3]);
      |               ^
more_in_c.c:19:15: help: make an operand a `uint64_t`: `1ul`
more_in_c.c:20:14: warning: in C this has type `int`, and may be negative [W601]
   20 |     print(!a - 1);
      |              ^
more_in_c.c:20:14: help: make an operand a `uint64_t`: `1ul`
more_in_c.c:21:11: warning: in C this has type `int`, and is negative [W601]
   21 |     print(~(a < b));
      |           ^
more_in_c.c:21:11: help: make an operand a `uint64_t`: `(0ul + ..)`
more_in_c.c:22:19: warning: in C this has type `int`, and may be negative [W601]
   22 |     print((a < b) - (b < a));
      |                   ^
more_in_c.c:22:19: help: make an operand a `uint64_t`: `(0ul + ..)`
more_in_c.c:23:27: warning: in C this has type `int`, and may be undefined, since it may pass that type [W601]
   23 |     print((a < b) * 65536 * 65536);
      |                           ^
more_in_c.c:23:27: help: make an operand a `uint64_t`: `65536ul`
more_in_c.c:24:22: warning: in C this has type `unsigned int`, and is 0; here it is 4294967296 [W601]
   24 |     print(0xFFFFFFFF + 1);
      |                      ^
more_in_c.c:24:22: help: make an operand a `uint64_t`: `4294967295ul`
more_in_c.c:25:14: warning: in C this has type `unsigned int`, and is 4294967295; here it is 18446744073709551615 [W601]
   25 |     print(1u - 2);
      |              ^
more_in_c.c:25:14: help: make an operand a `uint64_t`: `1ul`
more_in_c.c:26:11: warning: in C this has type `unsigned int`, and is 4294967295; here it is 18446744073709551615 [W601]
   26 |     print(~0u);
      |           ^
more_in_c.c:26:11: help: make an operand a `uint64_t`: `0ul`
more_in_c.c:27:22: warning: in C this has type `unsigned int`, and is 0; here it is 4294967296 [W601]
   27 |     print(0x80000000 * 2);
      |                      ^
more_in_c.c:27:22: help: make an operand a `uint64_t`: `2147483648ul`
more_in_c.c:28:13: warning: in C this has type `unsigned int`, and is 0; here it is 4294967296 [W601]
   28 |     print(M + 1);
      |             ^
more_in_c.c:28:13: help: make an operand a `uint64_t`: `4294967295ul`
more_in_c.c:29:13: warning: in C this has type `int`, and is -7; here it is 18446744073709551609 [W601]
   29 |     print(0 - K0);
      |             ^
more_in_c.c:29:13: help: make an operand a `uint64_t`: `0ul`
more_in_c.c:30:19: warning: in C this has type `unsigned int`, and may be another number, since that type has 32 bits [W601]
   30 |     print((a < b) - 1u);
      |                   ^
more_in_c.c:30:19: help: make an operand a `uint64_t`: `1ul`
more_in_c.c:31:14: warning: in C this has type `long`, and is undefined; here it is 9223372036854775808 [W601]
   31 |     print(1l << 63);
      |              ^~
more_in_c.c:31:14: help: make an operand a `uint64_t`: `1ul`
more_in_c.c:32:23: warning: in C this has type `unsigned int`, and is 1705032704; here it is 6000000000 [W601]
   32 |     print(3000000000u + 3000000000u);
      |                       ^
more_in_c.c:32:23: help: make an operand a `uint64_t`: `3000000000ul`
more_in_c.c:33:14: warning: in C this has type `int`, and is -70; here it is 18446744073709551546 [W601]
   33 |     print((0 - E) / 2);
      |              ^
more_in_c.c:33:14: help: make an operand a `uint64_t`: `0ul`
more_in_c.c:34:32: warning: in C this has type `long`, and is undefined; here it is 18446744073709551614 [W601]
   34 |     print(9223372036854775807l * 2);
      |                                ^
more_in_c.c:34:32: help: make an operand a `uint64_t`: `9223372036854775807ul`

# a number that no type holds, what `printf` takes, and each told once
$ ompc explain once_in_c.c
once_in_c.c: accepted
once_in_c.c:5:11: warning: in C this number has no type of its own; here it is 9223372036854775808 [W601]
    5 |     print(9223372036854775808);
      |           ^~~~~~~~~~~~~~~~~~~
once_in_c.c:5:11: help: write `9223372036854775808ul`
once_in_c.c:7:5: warning: in C this has type `int`, where `printf` takes an `unsigned long` [W601]
    7 |     printf("%lu\n", a < 3);
      |     ^~~~~~
once_in_c.c:7:5: help: write `print(..)`, or make it a `uint64_t`: `0ul + (..)`
once_in_c.c:8:5: warning: in C this has type `int`, where `printf` takes an `unsigned long` [W601]
    8 |     printf("%lu\n", 7);
      |     ^~~~~~
once_in_c.c:8:5: help: write `7ul`
once_in_c.c:11:17: warning: in C this has type `int`, and is -1; here it is 18446744073709551615 [W601]
   11 |         A[i] += ~0;
      |                 ^
once_in_c.c:11:17: help: make an operand a `uint64_t`: `0ul`
once_in_c.c:12:19: warning: in C this has type `int`, and may be negative [W601]
   12 |         A[(i < 3) - 1 & 3] += 1;
      |                   ^
once_in_c.c:12:19: help: make an operand a `uint64_t`: `1ul`
once_in_c.c:14:11: warning: in C this has type `int`, and is -1; here it is 18446744073709551615 [W601]
   14 |     if (1 - 2 > 0) { a = 1; }
      |           ^
once_in_c.c:14:11: help: make an operand a `uint64_t`: `1ul`

# behind the faults and the change of a program that is refused, and in the other forms
$ ompc explain below_in_c.c
below_in_c.c:6:11: error: the host reads A[0], whose last value is on device 0: nothing has copied it to the host since [E506]
    6 |     print(A[0]);
      |           ^~~~
below_in_c.c:5:7: note: A[0] is written here, on device 0
    5 |     { A[0] = 1 - 2; }
      |       ^~~~
below_in_c.c:4:32: note: `map(to: A[0:4])` removes A[0] from device 0 here without copying it to the host
    4 |     #pragma omp target map(to: A)
      |                                ^
below_in_c.c:4:32: help: write `tofrom` in place of `to` here, which copies it to the host
below_in_c.c:4:1: help: this change is accepted
--- below_in_c.c
+++ below_in_c.c
@@ -4 +4 @@
-    #pragma omp target map(to: A)
+    #pragma omp target map(tofrom: A)
below_in_c.c:5:16: warning: in C this has type `int`, and is -1; here it is 18446744073709551615 [W601]
    5 |     { A[0] = 1 - 2; }
      |                ^
below_in_c.c:5:16: help: make an operand a `uint64_t`: `1ul`
[1]
$ ompc explain tofrom_in_c.c --format json
{
  "accepted": true,
  "diagnostics": [],
  "file": "tofrom_in_c.c",
  "fixes": [],
  "more": 0,
  "tried": null,
  "version": 1,
  "warnings": [
    {
      "array": null,
      "cell": null,
      "code": "W601",
      "column": 16,
      "end_column": 17,
      "end_line": 5,
      "item": null,
      "line": 5,
      "loops": [],
      "message": "in C this has type `int`, and is -1; here it is 18446744073709551615",
      "notes": [
        {
          "column": 16,
          "end_column": 17,
          "end_line": 5,
          "kind": "help",
          "line": 5,
          "loops": [],
          "message": "make an operand a `uint64_t`: `1ul`"
        }
      ],
      "rule": "an expression may have another value in C, or none"
    }
  ]
}
$ ompc explain tofrom_in_c.c --format sarif
{
  "$schema": "https://docs.oasis-open.org/sarif/sarif/v2.1.0/errata01/os/schemas/sarif-schema-2.1.0.json",
  "runs": [
    {
      "columnKind": "unicodeCodePoints",
      "properties": {
        "more": 0
      },
      "results": [
        {
          "fixes": [],
          "level": "warning",
          "locations": [
            {
              "physicalLocation": {
                "artifactLocation": {
                  "uri": "tofrom_in_c.c"
                },
                "region": {
                  "endColumn": 17,
                  "endLine": 5,
                  "startColumn": 16,
                  "startLine": 5
                }
              }
            }
          ],
          "message": {
            "text": "in C this has type `int`, and is -1; here it is 18446744073709551615"
          },
          "properties": {
            "item": null,
            "loops": []
          },
          "relatedLocations": [
            {
              "id": 0,
              "message": {
                "text": "help: make an operand a `uint64_t`: `1ul`"
              },
              "physicalLocation": {
                "artifactLocation": {
                  "uri": "tofrom_in_c.c"
                },
                "region": {
                  "endColumn": 17,
                  "endLine": 5,
                  "startColumn": 16,
                  "startLine": 5
                }
              },
              "properties": {
                "loops": []
              }
            }
          ],
          "ruleId": "W601"
        }
      ],
      "tool": {
        "driver": {
          "name": "ompc",
          "rules": [
            {
              "id": "W601",
              "shortDescription": {
                "text": "an expression may have another value in C, or none"
              }
            }
          ],
          "version": "0.1.0"
        }
      }
    }
  ],
  "version": "2.1.0"
}
# names of loops of the type int
$ ompc explain counted_by_int.c
counted_by_int.c: accepted
counted_by_int.c:5:38: warning: in C this has type `int`, and may be negative [W601]
    5 | for (int i = 0; i < n; i++) A[i] = i - 1;
      |                                      ^
counted_by_int.c:5:38: help: make an operand a `uint64_t`: `1ul`
counted_by_int.c:7:38: warning: in C this has type `int`, and may be undefined, since it may pass that type [W601]
    7 | for (int i = 0; i < n; i++) A[i] = i * 1000000000;
      |                                      ^
counted_by_int.c:7:38: help: make an operand a `uint64_t`: `1000000000ul`
counted_by_int.c:8:17: warning: in C this is an `int`, which may not hold the number behind the last turn [W601]
    8 | for (int i = 0; i < 3000000000; i += 1000000000) A[0] += i;
      |                 ^
counted_by_int.c:8:17: help: let its type be `uint64_t`

# what C cuts to an int, or computes in 32 bits, also where it stands in no expression of the program
$ ompc explain given_to_int.c
given_to_int.c: accepted
given_to_int.c:3:1: warning: in C this has type `unsigned int`, and may be another number, since that type has 32 bits [W601]
    3 | #define N (0xFFFFFFFF + 3)
      | ^~~~~~~~~~~~~~~~~~~~~~~~~~
given_to_int.c:3:1: help: make an operand a `uint64_t`: `(0ul + ..)`
given_to_int.c:5:39: warning: in C this has type `uint64_t`, and what is made of it is cut to an `int` [W601]
    5 | int pick(uint64_t u) { return u > 3 ? 2ul : 1ul; }
      |                                       ^~~
given_to_int.c:5:39: help: write `2`, or give it to a `uint64_t`
given_to_int.c:5:45: warning: in C this has type `uint64_t`, and what is made of it is cut to an `int` [W601]
    5 | int pick(uint64_t u) { return u > 3 ? 2ul : 1ul; }
      |                                             ^~~
given_to_int.c:5:45: help: write `1`, or give it to a `uint64_t`
given_to_int.c:8:13: warning: in C this has type `uint64_t`, and what is made of it is cut to an `int` [W601]
    8 |     int n = M;
      |             ^
given_to_int.c:8:13: help: give it to a `uint64_t`
given_to_int.c:9:16: warning: in C this has type `unsigned int`, and what is made of it is cut to an `int` [W601]
    9 |     int mask = 0xFFFFFFFF;
      |                ^~~~~~~~~~
given_to_int.c:9:16: help: give it to a `uint64_t`
given_to_int.c:10:29: warning: in C this has type `unsigned int`, and is 3; here it is 4294967299 [W601]
   10 |     uint64_t k = 0xFFFFFFFF + 4;
      |                             ^
given_to_int.c:10:29: help: make an operand a `uint64_t`: `4294967295ul`
given_to_int.c:11:48: warning: in C this has type `unsigned int`, and what is made of it is cut to an `int` [W601]
   11 |     for (int i = 0; i < 4; i++) { int h = (i * 2654435761u) >> 22; print(h); }
      |                                                ^~~~~~~~~~~
given_to_int.c:11:48: help: give it to a `uint64_t`
given_to_int.c:12:26: warning: in C this has type `unsigned int`, and is 2; here it is 4294967298 [W601]
   12 |     print(n + mask + w % N + k);
      |                          ^
given_to_int.c:12:26: help: write `4294967298ul`
given_to_int.c:14:14: warning: in C this has type `unsigned int`, and may be another number, since that type has 32 bits [W601]
   14 |     w = half(4u * 1073741824u);
      |              ^~
given_to_int.c:14:14: help: make an operand a `uint64_t`: `(0ul + ..)`

# words that name no command, and options that take no such value
$ ompc walk
! error: unrecognized subcommand 'walk'
! 
! Usage: ompc <COMMAND>
! 
! For more information, try '--help'.
[2]
$ ompc step
! error: the following required arguments were not provided:
!   <FILE>
! 
! Usage: ompc step <FILE>
! 
! For more information, try '--help'.
[2]
$ ompc list
! error: the following required arguments were not provided:
!   <FILE>
! 
! Usage: ompc list <FILE>
! 
! For more information, try '--help'.
[2]
$ ompc step double.c --capacity x
! error: invalid value 'x' for '--capacity <C>': invalid digit found in string
! 
! For more information, try '--help'.
[2]
$ ompc step double.c --choices -1
! error: unexpected argument '-1' found
! 
!   tip: to pass '-1' as a value, use '-- -1'
! 
! Usage: ompc step [OPTIONS] <FILE>
! 
! For more information, try '--help'.
[2]
$ ompc
! checks and runs C programs with OpenMP target directives
! 
! Usage: ompc <COMMAND>
! 
! Commands:
!   check    says whether a program is accepted, and which arrays are current at its end
!   explain  says why a program is refused: the places in the source, and what happens there
!   fix      prints the source with its directives changed so that it is accepted, in at most 12 steps and 128 checks
!   witness  looks for choices by which a refused program prints something else than without directives, in at most 512 runs
!   view     prints a page of HTML: the source, and where the arrays are current behind each item
!   list     prints the items of an accepted program, a line each
!   run      runs a program on what standard input holds, by worker threads, and prints its output
!   step     runs a program likewise, but event by event, and prints its output and its log
!   help     Print this message or the help of the given subcommand(s)
! 
! Options:
!   -h, --help     Print help
!   -V, --version  Print version
[2]
$ ompc --help
! checks and runs C programs with OpenMP target directives
! 
! Usage: ompc <COMMAND>
! 
! Commands:
!   check    says whether a program is accepted, and which arrays are current at its end
!   explain  says why a program is refused: the places in the source, and what happens there
!   fix      prints the source with its directives changed so that it is accepted, in at most 12 steps and 128 checks
!   witness  looks for choices by which a refused program prints something else than without directives, in at most 512 runs
!   view     prints a page of HTML: the source, and where the arrays are current behind each item
!   list     prints the items of an accepted program, a line each
!   run      runs a program on what standard input holds, by worker threads, and prints its output
!   step     runs a program likewise, but event by event, and prints its output and its log
!   help     Print this message or the help of the given subcommand(s)
! 
! Options:
!   -h, --help     Print help
!   -V, --version  Print version
[2]
$ ompc run double.c --workers 0
! error: invalid value '0' for '--workers <N>': 0 is not in 1..=16
! 
! For more information, try '--help'.
[2]
$ ompc run double.c --workers 17
! error: invalid value '17' for '--workers <N>': 17 is not in 1..=16
! 
! For more information, try '--help'.
[2]
$ ompc run double.c --workers x
! error: invalid value 'x' for '--workers <N>': invalid digit found in string
! 
! For more information, try '--help'.
[2]
$ ompc --version
! ompc 0.1.0 (logic dac8208d650f15bf)
[2]
$ ompc fix
! error: the following required arguments were not provided:
!   <FILE>
! 
! Usage: ompc fix <FILE>
! 
! For more information, try '--help'.
[2]

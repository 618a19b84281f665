/* Between the counting plugin and the guest program that it counts. */
#ifndef COUNT_H
#define COUNT_H

enum { ASK_FOR_COUNT = 100000 };        /* a number that no system call has */

#endif

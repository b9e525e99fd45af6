/* A mark is a system call of this number, which no system has, with three numbers: a counted program makes it, the
 * plugin sees it. */
#ifndef MARK_H
#define MARK_H

enum { MARK = 0x8B9B };

#endif

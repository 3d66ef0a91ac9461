#ifndef SUM_H
#define SUM_H
int sum(int a, int b);
int twice(int a);
#endif

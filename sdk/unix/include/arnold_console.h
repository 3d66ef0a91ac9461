/* The byte that ends the input when it is typed, 4 at first. -1: no byte does, and all bytes are handed on. */
#ifndef ARNOLD_CONSOLE_H
#define ARNOLD_CONSOLE_H

#pragma GCC system_header

extern int arnold_end_of_input;

#endif

/* For a compiler that comes without C's headers. */
#pragma once
int printf(const char *, ...);

/* The call of the frame's host. Link with target/staticlib/libsession.a, which `host/run FILE` makes of the crate
 * session_c; it needs no runtime. */
#ifndef LOVAGETOWER_H
#define LOVAGETOWER_H

#include <stddef.h>
#include <stdint.h>

/*
 * Judges the session file that stands in `length` bytes at `bytes`. Answers the number of the verdict, 0 fit,
 * 6 overloaded, 7 blocked, or that of the first fault in the file, 22 to 26. Reads nothing outside the bytes, keeps
 * nothing, and always returns. For an empty file pass any pointer that is not null and the length 0.
 */
uint32_t lovagetower_judge(const uint8_t *bytes, size_t length);

#endif

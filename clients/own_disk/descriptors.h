/* The standard descriptors of a program that opens files. */
#ifndef DESCRIPTORS_H
#define DESCRIPTORS_H

#include <errno.h>
#include <fcntl.h>
#include <stdbool.h>

/* Puts the null device in the place of each of the descriptors 0, 1 and 2 that is closed, so that none of them is
 * given to a file that is opened later. It is opened the wrong way round: a read of a closed input and a write to a
 * closed output still fail. False where it can't be opened; then nothing else is to be. */
static inline bool
take_descriptors(void)
{
	for (int number = 0; number <= 2; number++) {
		if (fcntl(number, F_GETFD) >= 0 || errno != EBADF)
			continue;
		if (open("/dev/null", number == 0 ? O_WRONLY : O_RDONLY) != number)
			return false;
	}
	return true;
}

#endif

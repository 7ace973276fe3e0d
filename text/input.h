/* Lines read from a file, whatever its bytes are. */
#ifndef INPUT_H
#define INPUT_H

#include <stdbool.h>
#include <stddef.h>
#include <stdio.h>

enum { INPUT_ROOM = 4096 };

/* Without its line end, LF or CR LF, and with a NUL behind it. Of a line that is longer than the room, `cut`, the rest is passed over. */
struct input_line {
	char bytes[INPUT_ROOM];
	size_t length;
	bool cut;
};

/* False at the file's end, or if it cannot be read (ferror). Before the file's `first` line a byte order mark is passed over. */
bool read_input(FILE *file, struct input_line *line, bool first);

#endif

/* try [FILE...]: event lines tried on a task set, with what was answered, the table and who is told behind each (try/README.md). */
#define _POSIX_C_SOURCE 200809L
#include <stdio.h>
#include <string.h>
#include <unistd.h>

#include "failure.h"
#include "session.h"

enum { EXIT_CLEAR, EXIT_UNCLEAR, EXIT_USAGE };

/* More than a line's output, so that it is written when it is flushed, where the reason of a failure is still known. */
static char output_room[1 << 15];

static bool is_standard_input(const char *name)
{
	return strcmp(name, "-") == 0;
}

static const char *first_option(char **names)
{
	while (*names != NULL && ((*names)[0] != '-' || is_standard_input(*names)))
		names++;
	return *names;
}

static bool read_source(struct session *session, struct source source)
{
	source.by_hand = isatty(fileno(source.file)) && isatty(STDOUT_FILENO);
	return session_read(session, &source);
}

static bool read_file(struct session *session, const char *name)
{
	FILE *file = fopen(name, "r");
	if (file == NULL)
		return failed(name);
	bool read = read_source(session, (struct source){.file = file, .name = name});
	fclose(file);
	return read;
}

static bool read_named(struct session *session, const char *name)
{
	return is_standard_input(name) ? read_source(session, (struct source){.file = stdin}) : read_file(session, name);
}

static bool read_all(struct session *session, char **names)
{
	bool read = true;
	for (; read && *names != NULL && !session->left; names++)
		read = read_named(session, *names);
	return read;
}

int main(int argc, char **argv)
{
	static char *standard_input[] = {"-", NULL};
	static struct session session;
	char **names = argc > 1 ? argv + 1 : standard_input;
	if (first_option(names) != NULL) {
		fprintf(stderr, "try: %s: no such option; usage: try [FILE...]\n", first_option(names));
		return EXIT_USAGE;
	}
	setvbuf(stdout, output_room, _IOFBF, sizeof output_room);
	bool read = session_begin(&session) && read_all(&session, names);
	return read && !session.unclear ? EXIT_CLEAR : EXIT_UNCLEAR;
}

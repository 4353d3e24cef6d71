/* The commands. Each replies the status that the tool ends with. */
#ifndef COMMANDS_H
#define COMMANDS_H

int members_command(const char *path);
int check_command(const char *path);
int same_command(const char *first, const char *second);

/* To standard output in hex; raw to the file `to`, where that is not NULL. */
int sheet_command(const char *path, const char *to);

#endif

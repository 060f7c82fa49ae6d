/* What --help prints. */
#ifndef HELP_H
#define HELP_H

void print_help(void);

#endif

/* Text as comma-separated values have it. */
#ifndef CSV_H
#define CSV_H

/* Prints a text in quotes; a quote in it is doubled. */
void print_csv_text(const char *text);

#endif

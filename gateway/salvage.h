/* The pieces of a recording told, and its whole messages kept. */
#ifndef SALVAGE_H
#define SALVAGE_H

#include "request.h"

/* Prints what the request asks for of the pieces of an open recording, and keeps the messages where
 * it names a file for them. */
enum status salvage(const struct request *request, int file);

#endif

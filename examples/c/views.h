/* The named views of a request's fields. */
#ifndef VIEWS_H
#define VIEWS_H

#include "reis.h"

/* How many fields of the request its view has, and says what `fields` says; -1 where they differ. */
int fields_in_view(const reis_request *request);

#endif

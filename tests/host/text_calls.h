// Random calls on texts.
#ifndef TEXT_CALLS_H
#define TEXT_CALLS_H

#include "compare.h"

// rifflerleek_read and rifflerleek_field, on the library and the reference.
void call_read(void);
void call_field(void);

// A text of edition 3 that the library reads, and whose table it then writes, must come back as those bytes, and an older one as its form
// in edition 3. The text of a table that passes the checks must come back.
void call_trip(void);

// How often each letter of a listing was read, a header alone was, and each fault of a header and each line of another edition was
// refused; and, which report_texts prints too, each edition came back; and how many of these never.
int report_texts(void);
int report_trips(void);

#endif

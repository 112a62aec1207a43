/* Sizes and offsets of what crosses the border, as the library has them. Nothing runs here: it is compiled. */
#include "reis.h"

_Static_assert(sizeof(void *) == 8, "a word has 8 bytes");
_Static_assert(sizeof(size_t) == 8, "a count has 8 bytes");

_Static_assert(sizeof(reis_session) == 8, "a session is one word");
_Static_assert(_Alignof(reis_session) == 8, "which stands where a word may");
_Static_assert(offsetof(reis_session, at) == 0, "at its beginning");

_Static_assert(sizeof(reis_request) == 64, "a request has 64 bytes");
_Static_assert(_Alignof(reis_request) == 8, "and stands where a word may");
_Static_assert(offsetof(reis_request, kind) == 0, "the kind, and four bytes that count nothing");
_Static_assert(offsetof(reis_request, seat) == 8, "the seat");
_Static_assert(offsetof(reis_request, device) == 16, "the device");
_Static_assert(offsetof(reis_request, time) == 24, "the time");
_Static_assert(offsetof(reis_request, fields) == 32, "the fields");
_Static_assert(sizeof(((reis_request *)0)->fields) == 32, "four of them");

_Static_assert(sizeof(float) == 4, "a distance has 4 bytes");
_Static_assert(offsetof(struct reis_touch, y) == 16, "each field of a view stands where one of the four does");

_Static_assert(sizeof(reis_answer) == 4 && sizeof(reis_end) == 4 && sizeof(reis_context_type) == 4, "a number has 4 bytes");

_Static_assert(sizeof(reis_connection) == 8 && _Alignof(reis_connection) == 8, "a connection is one word too");

_Static_assert(sizeof(reis_region) == 28 && _Alignof(reis_region) == 4, "a region has seven numbers of 4 bytes");
_Static_assert(offsetof(reis_region, scale) == 16 && offsetof(reis_region, mapping_id) == 20, "its mapping id stands behind its scale");
_Static_assert(offsetof(reis_device, size) == 0, "a device begins with its size");
_Static_assert(sizeof(reis_device) == 88, "which is 88");
_Static_assert(sizeof(reis_reason) == 4 && sizeof(reis_device_type) == 4 && sizeof(reis_keymap_type) == 4, "a number has 4 bytes");

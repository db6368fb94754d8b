/* What the viewer needs of the standard's header, for a compiler that comes without one. */
#ifndef VIEWER_STDDEF_H
#define VIEWER_STDDEF_H
typedef __SIZE_TYPE__ size_t;
#define NULL ((void *)0)
#endif

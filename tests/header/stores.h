/* Memory into which every store is seen, for order.c. How that is done stands in stores.c. */
#ifndef STORES_H
#define STORES_H

#include <stddef.h>
#include <stdint.h>

enum { ROOMS = 3 };

extern uint8_t *rooms[ROOMS];

/* Makes the rooms, of so many bytes each. While they are closed, `before` is called with the room and the byte in it before each store. */
void make_rooms(size_t bytes, void (*before)(size_t room, size_t byte));
void close_rooms(void);
void open_rooms(void);

/* Says what is wrong, and ends the program with 1. */
void die(const char *what);

#endif

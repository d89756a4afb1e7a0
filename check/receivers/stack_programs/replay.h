/* A TCP stack as the inside host of recorded connections. replay.c feeds it. The file of each
   stack has the functions stack_*; it reports through app_* what an application reads, and
   through wire() what the stack sends. */

#ifndef REPLAY_H
#define REPLAY_H

#include <stddef.h>
#include <stdint.h>

/* Addresses and ports in the byte order of the machine. */
struct tuple {
    uint32_t outside, inside;
    uint16_t outport, inport;
};

#ifndef STACK_IN_GO
/* Makes a fresh stack with the inside's address; `listens`: with a listening socket at the
   inside's port. */
void stack_start(const struct tuple *tuple, int listens);
/* Opens the connection from the inside. */
void stack_connect(void);
/* Takes an IPv4 packet. When it returns, the application has read all that can be read. */
void stack_input(const uint8_t *packet, size_t length);
/* Sends the inside's FIN. */
void stack_shut(void);
/* Sends the inside's RST: after that nothing is read. */
void stack_abort(void);
#endif

/* 0 for a stack that only listens and reads: its host keeps the connection open. */
extern int stack_acts;

/* Returns the first sequence number of the recorded host. A stack takes it where its own can be
   set; otherwise acknowledgments are shifted. */
uint32_t recorded_iss(void);

void app_opened(void);
void app_read(const void *octets, size_t length);
void app_ended(void);
void wire(const uint8_t *packet, size_t length);

#endif

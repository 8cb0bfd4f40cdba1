// What both VMs know: where their window lies, the two mailboxes in it, and how they use them.
#ifndef MAIL_H
#define MAIL_H

#include "calls.h"
#include "mailbox.h"

struct window {
    struct mailbox requests; // from the client to the server
    struct mailbox answers;  // from the server to the client
};

#define WINDOW ((volatile struct window *)0x180000)

// the window's place in `ipcs`, the same in both VMs, and the one event of its shared memory
#define WINDOW_PLACE 0
#define EVENT 0

// Sends a message as soon as there is room, and rings.
static inline void send(volatile struct mailbox *mailbox, const struct message *message)
{
    while (!mailbox_send(mailbox, message)) {
    }
    ring_doorbell(WINDOW_PLACE, EVENT);
}

// Waits for a message, by looking for it: neither VM enables the doorbell's interrupt. Whatever the other VM wrote, the message
// ends with a zero.
static inline void receive(volatile struct mailbox *mailbox, struct message *message)
{
    while (!mailbox_receive(mailbox, message)) {
    }
    message->bytes[MESSAGE_BYTES - 1] = 0;
}

#endif

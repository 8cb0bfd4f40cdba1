// A queue of messages in memory that two VMs share, from one sender to one receiver. Where all of it is zero, it is empty.
// Whatever the other side writes, no place outside the mailbox is touched.
#ifndef MAILBOX_H
#define MAILBOX_H

#include <stdbool.h>
#include <stdint.h>

#define MAILBOX_SLOTS 4 // a power of two
#define MESSAGE_BYTES 16

struct message {
    uint8_t bytes[MESSAGE_BYTES];
};

struct mailbox {
    uint32_t head; // how many messages were sent, modulo 2^32; the sender alone writes it
    uint32_t tail; // how many were received; the receiver alone writes it
    uint32_t unused[2]; // so that each slot is a line of the report
    struct message slots[MAILBOX_SLOTS];
};

// Puts a message in, and tells whether there was room.
static inline bool mailbox_send(volatile struct mailbox *mailbox, const struct message *message)
{
    uint32_t head = mailbox->head;
    if (head - mailbox->tail >= MAILBOX_SLOTS) {
        return false;
    }
    for (unsigned at = 0; at < MESSAGE_BYTES; at++) {
        mailbox->slots[head % MAILBOX_SLOTS].bytes[at] = message->bytes[at];
    }
    mailbox->head = head + 1; // only now: the message is whole
    return true;
}

// Takes the oldest message out, and tells whether there was one.
static inline bool mailbox_receive(volatile struct mailbox *mailbox, struct message *message)
{
    uint32_t tail = mailbox->tail;
    if (mailbox->head == tail) {
        return false;
    }
    for (unsigned at = 0; at < MESSAGE_BYTES; at++) {
        message->bytes[at] = mailbox->slots[tail % MAILBOX_SLOTS].bytes[at];
    }
    mailbox->tail = tail + 1; // only now: the slot is free
    return true;
}

#endif

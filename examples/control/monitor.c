// Prints a line for each sample of the controller, at the interrupt of its doorbell: the tick, the speed and the power.
#include "console.h"
#include "control.h"
#include "gic.h"
#include "vectors.h"

#define CONSOLE ((volatile struct console *)0x9c0a0000)
#define DOORBELL_INTERRUPT 50
#define DOORBELL_PRIORITY 0x40

static struct sample sample;

static void put_number(uint32_t number, char end)
{
    console_put_number(CONSOLE, number);
    console_put(CONSOLE, end);
}

void handle_irq(void)
{
    uint32_t id = interrupt_acknowledge();
    while (mailbox_receive(WINDOW, (struct message *)&sample)) {
        put_number(sample.tick, ' ');
        put_number(sample.speed, ' ');
        put_number(sample.power, '\n');
    }
    interrupt_end(id);
}

void run(void)
{
    vectors_install();
    interrupt_enable(DOORBELL_INTERRUPT, DOORBELL_PRIORITY);
    gic_open(0xff);
    interrupts_unmask();
    for (;;) {
        wait_for_interrupt();
    }
}

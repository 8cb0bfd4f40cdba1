// Keeps a wheel at the speed that an operator asks for. At each tick of the timer it counts the wheel's pulses, corrects the
// power, and sends the sample to the monitor. The operator types a digit, the speed, and is answered on the console. A tick is
// more urgent: it comes into the middle of an answer, while a digit waits for the end of a tick. The console shows that, since
// the tick puts [ out at its beginning and ] at its end.
#include "console.h"
#include "control.h"
#include "gic.h"
#include "ticker.h"
#include "timer.h"
#include "vectors.h"

#define CONSOLE ((volatile struct console *)0x9c090000)
#define WHEEL ((volatile struct ticker *)0x9c0b0000)
#define CONSOLE_INTERRUPT 40
#define TICK_PRIORITY 0x40
#define CONSOLE_PRIORITY 0x80
#define PERIOD 1000 // counts from tick to tick
#define MOST_POWER 100

static struct sample sample; // of the last tick
static uint64_t next_tick;
static uint32_t pulses; // of the wheel, up to the last tick

// Pulses a tick. An answer sets it and a tick reads it, which may come at any place of the answer.
static volatile uint32_t target = 5;

static void tick(void)
{
    next_tick += PERIOD;
    timer_set(next_tick);
    console_put(CONSOLE, '[');

    uint32_t now = ticker_count(WHEEL);
    sample.tick++;
    sample.speed = now - pulses;
    pulses = now;
    int32_t power = (int32_t)(sample.power + target - sample.speed);
    sample.power = power < 0 ? 0 : power > MOST_POWER ? MOST_POWER : power;

    if (mailbox_send(WINDOW, (const struct message *)&sample)) { // a tick doesn't wait: a sample without room is lost
        ring_doorbell(WINDOW_PLACE, EVENT);
    }
    console_put(CONSOLE, ']');
}

static void answer(void)
{
    while (console_has_byte(CONSOLE)) {
        uint8_t byte = console_get(CONSOLE);
        if (byte < '0' || byte > '9') {
            continue;
        }
        target = byte - '0';
        console_put_text(CONSOLE, "<speed ");
        console_put(CONSOLE, byte);
        console_put(CONSOLE, '>');
    }
}

void handle_irq(void)
{
    uint32_t id = interrupt_acknowledge();
    interrupts_unmask(); // only what is more urgent comes in
    if (id == TIMER_INTERRUPT) {
        tick();
    } else if (id == CONSOLE_INTERRUPT) {
        answer();
    }
    interrupts_mask();
    interrupt_end(id);
}

void run(void)
{
    vectors_install();
    interrupt_enable(TIMER_INTERRUPT, TICK_PRIORITY);
    interrupt_enable(CONSOLE_INTERRUPT, CONSOLE_PRIORITY);
    gic_open(0xff);
    CONSOLE->control = 1; // an input byte raises the line
    next_tick = timer_count() + PERIOD;
    timer_set(next_tick);
    interrupts_unmask();
    for (;;) {
        wait_for_interrupt();
    }
}

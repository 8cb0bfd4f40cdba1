// Sends four words and an empty one, which ends it, and prints the answers. Then it turns its VM off.
#include "console.h"
#include "mail.h"

#define CONSOLE ((volatile struct console *)0x9c090000)
#define WORDS 4

static const struct message words[WORDS + 1] = {{"drawer"}, {"stressed"}, {"deliver"}, {"live"}};

static struct message answer;

uint32_t run(void)
{
    for (unsigned at = 0; at <= WORDS; at++) {
        send(&WINDOW->requests, &words[at]);
    }
    for (unsigned at = 0; at < WORDS; at++) {
        receive(&WINDOW->answers, &answer);
        console_put_text(CONSOLE, (const char *)answer.bytes);
        console_put(CONSOLE, '\n');
    }
    psci_system_off();
    return 0; // isn't reached
}

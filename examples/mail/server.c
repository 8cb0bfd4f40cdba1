// Answers each word that it receives with the word backwards, up to an empty one. Core 1 turns the word around while core 0
// prints it; it is turned on for each word, and turns itself off.
#include "console.h"
#include "mail.h"

#define CONSOLE ((volatile struct console *)0x9c0a0000)
#define HELPER 1

static struct message request;
static struct message answer;

void start_secondary(void);

// What core 1 runs.
void run_secondary(const struct message *word)
{
    unsigned length = 0;
    while (word->bytes[length] != 0) {
        length++;
    }
    for (unsigned at = 0; at < length; at++) {
        answer.bytes[at] = word->bytes[length - 1 - at];
    }
    answer.bytes[length] = 0;
    psci_cpu_off();
}

// Gives the number of words.
uint32_t run(void)
{
    for (uint32_t words = 0;; words++) {
        receive(&WINDOW->requests, &request);
        if (request.bytes[0] == 0) {
            return words;
        }
        psci_cpu_on(HELPER, (uint64_t)start_secondary, (uint64_t)&request);
        console_put_text(CONSOLE, (const char *)request.bytes);
        console_put(CONSOLE, '\n');
        while (psci_affinity_info(HELPER, 0) != PSCI_AFFINITY_OFF) {
        }
        send(&WINDOW->answers, &answer);
    }
}

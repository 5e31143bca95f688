/*
 * Plays some MIDI bytes to a module of two generators and prints who was stolen: the example of the listing program.
 * The record is copied before each byte, so that the copy can be asked who held the generator that a note took.
 */
#include <stdio.h>
#include "muntinorris.h"

static const uint8_t song[] = {
    /* MIP: channel 1 needs 1 generator, channels 1 and 2 need 2 */
    0xF0, 0x7F, 0x7F, 0x0B, 0x01, 0x00, 0x01, 0x01, 0x02, 0xF7,
    0x90, 0x3C, 0x40, /* channel 1, key 60: an idle generator */
    0x3E, 0x40,       /* channel 1, key 62, by running status: the other one */
    0x91, 0x40, 0x40, /* channel 2, key 64: channel 1 is one over its share; none is on the pedal, the older goes */
    0x92, 0x40, 0x40, /* channel 3 is masked */
};

int main(void)
{
    struct muntinorris_device device;
    struct muntinorris_answer answer = muntinorris_start(&device, 2, 0);
    unsigned i;

    if (answer.what != MUNTINORRIS_DONE)
        return 1;
    for (i = 0; i < sizeof song; i++) {
        struct muntinorris_device before = device;

        answer = muntinorris_byte(&device, song[i]);
        if (answer.what == MUNTINORRIS_NOTE && answer.was == MUNTINORRIS_WAS_STOLEN) {
            struct muntinorris_generator_answer lost = muntinorris_generator(&before, answer.generator);

            printf("byte %u: channel %u key %u stole generator %u from channel %u key %u\n",
                   i, answer.channel, answer.key, answer.generator, lost.channel, lost.key);
        } else if (answer.what == MUNTINORRIS_NOTE) {
            printf("byte %u: channel %u key %u has generator %u\n",
                   i, answer.channel, answer.key, answer.generator);
        } else if (answer.what == MUNTINORRIS_NUMBER) {
            printf("byte %u: number %u\n", i, answer.number);
        }
    }
    return 0;
}

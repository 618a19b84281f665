/* A get of power, played on a setup of one fresh panel, ID 1 in group 9.
 *
 *     cc one_burst.c $(pkg-config --cflags --libs undivarro) && ./a.out */
#include <stdio.h>
#include <undivarro.h>

int main(void)
{
    const uint8_t setup[] = {1, 9, UNDIVARRO_GENERAL, 0, 0, 1, 2}, burst[] = {0x05, 0x01, 0x00, 0x19, 0x1D};
    uint8_t answer[UNDIVARRO_ANSWER_CAP], after[UNDIVARRO_IMAGE_CAP];
    struct undivarro_result r = undivarro_play(setup, sizeof setup, burst, sizeof burst, answer, sizeof answer, after,
                                               sizeof after);
    for (size_t i = 0; i < r.answer_len; i++)
        printf("%02X ", answer[i]);
    printf("refusal %u, setup of %zu bytes\n", r.refusal, r.image_len);
    return r.refusal != 0;
}

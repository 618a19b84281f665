/* A scene of three bursts, played by one call on a setup of one fresh panel, ID 1 in group 9.
 *
 *     cc scene.c $(pkg-config --cflags --libs undivarro) && ./a.out */
#include <stdio.h>
#include <undivarro.h>

int main(void)
{
    const uint8_t setup[] = {1, 9, UNDIVARRO_GENERAL, 0, 0, 1, 2};
    const uint8_t scene[] = {6, 0x06, 0x01, 0x00, 0x61, 0x04, 0x62,     /* panel 1: fan 4 */
                             6, 0x06, 0x00, 0x09, 0x61, 0x02, 0x6C,     /* group 9: fan 2 */
                             5, 0x05, 0x01, 0x00, 0x62, 0x66};          /* panel 1: fan? */
    uint8_t answers[3 * UNDIVARRO_BATCH_CAP], after[UNDIVARRO_IMAGE_CAP];
    struct undivarro_result r = undivarro_batch(setup, sizeof setup, scene, sizeof scene, answers, sizeof answers, after,
                                                sizeof after);
    for (size_t at = 0; at < r.answer_len; at += 1u + answers[at]) {
        printf("%u bytes:", answers[at]);
        for (size_t i = 1; i <= answers[at]; i++)
            printf(" %02X", answers[at + i]);
        putchar('\n');
    }
    printf("refusal %u, setup of %zu bytes\n", r.refusal, r.image_len);
    return r.refusal != 0;
}

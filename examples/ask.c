/* Asks where a guest's read of eight bytes at 0x1008 lands, at EL0, in a capture of 32KB from 0x40000000 on. */
#include <humpelkaas.h>
#include <inttypes.h>
#include <stdio.h>

int main(void)
{
    static uint64_t words[0x8000 / 8]; /* little-endian, as descriptors are */
    words[0x0000 / 8] = 0x40001003, words[0x1000 / 8] = 0x40002003; /* stage 2: tables of level 1 and 2, */
    words[0x2008 / 8] = 0x400037FF, words[0x2010 / 8] = 0x400047FF; /* and one of level 3 with four pages */
    words[0x2018 / 8] = 0x400057FF, words[0x2280 / 8] = 0x000907FF;
    words[0x3000 / 8] = 0x2003, words[0x4000 / 8] = 0x3003, words[0x5008 / 8] = 0x50743; /* stage 1's tables */
    humpelkaas_el2 el2 = {40, 0x80000001, 0x20059, 0x40000000, 0};
    humpelkaas_el1 el1 = {5, 0x200800019, 0x1000, 0, 0xFF};
    humpelkaas_access access = {0x1008, HUMPELKAAS_READ, 0, 8};
    uint64_t log[HUMPELKAAS_LOG_WORDS];
    humpelkaas_answer answer = humpelkaas_translate((const uint8_t *)words, sizeof words, 0x40000000, el2, el1, access,
                                                    log, HUMPELKAAS_LOG_WORDS);
    printf("answer %" PRIu64 ", address 0x%" PRIx64 ", descriptors read:\n", answer.number, answer.address);
    for (uint64_t i = 0; i < answer.reads; i++)
        printf("0x%" PRIx64 "\n", log[i]);
    return answer.number == HUMPELKAAS_TRANSLATED ? 0 : 1;
}

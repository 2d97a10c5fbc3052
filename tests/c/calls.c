/*
 * Calls every exported function through the header, from C and from C++, and holds what comes back to document 01's
 * cases, to what a guest with larger granules has, and to the same cases in a core file. Each constant of the header is
 * met by an answer or a limit of the library.
 *
 * Prints what differs and, on the last line, how many values were held and how many differ. Exit status 0 exactly when
 * none do.
 */
#include <humpelkaas.h>
#include <inttypes.h>
#include <stdio.h>
#include <string.h>

#define COUNT(list) (sizeof(list) / sizeof((list)[0]))

static unsigned held, differ;

static void same(const char *what, const char *part, uint64_t got, uint64_t wanted)
{
    held++;
    if (got != wanted) {
        differ++;
        printf("%s: %s is 0x%" PRIx64 ", not 0x%" PRIx64 "\n", what, part, got, wanted);
    }
}

/* ---- the capture and the registers that all cases start from */

#define BASE UINT64_C(0x40000000)
#define TOP (UINT64_C(1) << 48)

static uint64_t words[0x8000 / 8];
static const uint8_t *const bytes = (const uint8_t *)words;

static void put(uint64_t address, uint64_t word)
{
    words[(address - BASE) / 8] = word;
}

static void reset(void)
{
    memset(words, 0, sizeof words);
    put(0x40000000, 0x40001003);
    put(0x40001000, 0x40002003);
    put(0x40002008, 0x400037FF);
    put(0x40002010, 0x400047FF);
    put(0x40002018, 0x400057FF);
    put(0x40002280, 0x907FF);
    put(0x40003000, 0x2003);
    put(0x40004000, 0x3003);
    put(0x40005008, 0x50743);
}

/* Fields are set by their names here and below, so that a header with two of them swapped is found out. */
static humpelkaas_el2 host(void)
{
    humpelkaas_el2 el2;
    el2.pamax = 40;
    el2.hcr_el2 = 0x80000001;
    el2.vtcr_el2 = 0x20059;
    el2.vttbr_el2 = 0x40000000;
    el2.sctlr_el2 = 0;
    return el2;
}

static humpelkaas_el1 guest(void)
{
    humpelkaas_el1 el1;
    el1.sctlr_el1 = 5;
    el1.tcr_el1 = 0x200800019;
    el1.ttbr0_el1 = 0x1000;
    el1.ttbr1_el1 = 0;
    el1.mair_el1 = 0xFF;
    return el1;
}

static humpelkaas_access access_to(uint64_t address, uint64_t kind, uint64_t el, uint64_t size)
{
    humpelkaas_access access;
    access.address = address;
    access.kind = kind;
    access.el = el;
    access.size = size;
    return access;
}

static humpelkaas_access reading(uint64_t address)
{
    return access_to(address, HUMPELKAAS_READ, 0, 8);
}

/* ---- the question */

/* What memory holds that a call is to leave alone. */
#define MARK UINT64_C(0x5A5A5A5A5A5A5A5A)

/* Two words more than a log must have. */
static uint64_t log_words[HUMPELKAAS_LOG_WORDS + 2];

static void fill(uint64_t *list, size_t length)
{
    for (size_t i = 0; i < length; i++)
        list[i] = MARK;
}

static void kept(const char *what, const uint64_t *list, size_t from, size_t length)
{
    for (size_t i = from; i < length; i++)
        same(what, "a word that is to be kept", list[i], MARK);
}

static humpelkaas_answer ask(humpelkaas_el2 el2, humpelkaas_el1 el1, humpelkaas_access access)
{
    fill(log_words, COUNT(log_words));
    return humpelkaas_translate(bytes, sizeof words, BASE, el2, el1, access, log_words, COUNT(log_words));
}

/* Case A with another capture or another length of the log. */
static humpelkaas_answer ask_a(const uint8_t *capture, size_t length, uint64_t base, size_t log_length)
{
    fill(log_words, COUNT(log_words));
    return humpelkaas_translate(capture, length, base, host(), guest(), reading(0x1008), log_words, log_length);
}

/* An answer word by word, and that the log's words past its reads are kept. */
static void expect(const char *what, humpelkaas_answer got, humpelkaas_answer wanted)
{
    same(what, "number", got.number, wanted.number);
    same(what, "item", got.item, wanted.item);
    same(what, "address", got.address, wanted.address);
    same(what, "memory", got.memory, wanted.memory);
    same(what, "shareability", got.shareability, wanted.shareability);
    same(what, "level1", got.level1, wanted.level1);
    same(what, "level2", got.level2, wanted.level2);
    same(what, "stage", got.stage, wanted.stage);
    same(what, "level", got.level, wanted.level);
    same(what, "onwalk", got.onwalk, wanted.onwalk);
    same(what, "ipa", got.ipa, wanted.ipa);
    same(what, "reads", got.reads, wanted.reads);
    kept(what, log_words, wanted.reads, COUNT(log_words));
}

static humpelkaas_answer only(uint64_t number)
{
    humpelkaas_answer answer;
    memset(&answer, 0, sizeof answer);
    answer.number = number;
    return answer;
}

static humpelkaas_answer refused(uint64_t number, uint64_t item)
{
    humpelkaas_answer answer = only(number);
    answer.item = item;
    return answer;
}

/* Stage 2's leaf is at level 3 throughout. */
static humpelkaas_answer translated(uint64_t address, uint64_t memory, uint64_t shareability, uint64_t level1,
                                    uint64_t reads)
{
    humpelkaas_answer answer = only(HUMPELKAAS_TRANSLATED);
    answer.address = address;
    answer.memory = memory;
    answer.shareability = shareability;
    answer.level1 = level1;
    answer.level2 = 3;
    answer.reads = reads;
    return answer;
}

static humpelkaas_answer stopped(uint64_t number, uint64_t address, uint64_t stage, uint64_t level, uint64_t onwalk,
                                 uint64_t ipa, uint64_t reads)
{
    humpelkaas_answer answer = only(number);
    answer.address = address;
    answer.stage = stage;
    answer.level = level;
    answer.onwalk = onwalk;
    answer.ipa = ipa;
    answer.reads = reads;
    return answer;
}

static const uint64_t write_back = HUMPELKAAS_NORMAL(HUMPELKAAS_WRITE_BACK, HUMPELKAAS_WRITE_BACK);

/* The reads of case A: stage 1's descriptors, each after stage 2's of its address, then those of the output. */
static const uint64_t reads_of_a[] = {
    0x40000000, 0x40001000, 0x40002008, 0x40003000, 0x40000000, 0x40001000, 0x40002010, 0x40004000,
    0x40000000, 0x40001000, 0x40002018, 0x40005008, 0x40000000, 0x40001000, 0x40002280,
};

static void expect_a(const char *what, humpelkaas_answer got)
{
    expect(what, got, translated(0x90008, write_back, HUMPELKAAS_INNER_SHAREABLE, 3, COUNT(reads_of_a)));
    for (size_t i = 0; i < COUNT(reads_of_a); i++)
        same(what, "a word of the log", log_words[i], reads_of_a[i]);
}

static void case_a(void)
{
    static uint8_t moved[sizeof words + 1];
    humpelkaas_el1 el1 = guest();

    reset();
    expect_a("A", ask(host(), guest(), reading(0x1008)));

    memcpy(moved + 1, words, sizeof words);
    expect_a("A in a capture that is not aligned", ask_a(moved + 1, sizeof words, BASE, COUNT(log_words)));
    expect_a("A with a log of 24 words", ask_a(bytes, sizeof words, BASE, HUMPELKAAS_LOG_WORDS));

    el1.tcr_el1 = 0x280190019; /* the upper range, with T1SZ 25 */
    el1.ttbr0_el1 = 0;
    el1.ttbr1_el1 = 0x1000;
    expect_a("A in the upper range", ask(host(), el1, reading(UINT64_C(0xFFFFFF8000001008))));
}

/* The stops of document 01's cases, and an address size fault. */
static void stops(void)
{
    humpelkaas_el1 off = guest();
    off.sctlr_el1 = 0;

    reset();
    put(0x40002280, 0x9077F);
    expect("B", ask(host(), guest(), access_to(0x1008, HUMPELKAAS_WRITE, 0, 8)),
           stopped(HUMPELKAAS_PERMISSION_FAULT, 0, 2, 3, 0, 0x50008, 15));
    expect_a("B as a read", ask(host(), guest(), reading(0x1008)));

    reset();
    put(0x40002010, 0);
    expect("C", ask(host(), guest(), reading(0x1008)), stopped(HUMPELKAAS_TRANSLATION_FAULT, 0, 2, 3, 1, 0x2000, 7));

    reset();
    put(0x40005008, 0x50343);
    expect("D", ask(host(), guest(), reading(0x1008)), stopped(HUMPELKAAS_ACCESS_FLAG_FAULT, 0, 1, 3, 0, 0, 12));

    reset();
    expect("E", ask_a(bytes, 0x4000, BASE, COUNT(log_words)),
           stopped(HUMPELKAAS_NOT_IN_CAPTURE, 0x40004000, 1, 2, 0, 0, 7));
    expect("A in an empty capture", ask_a(bytes, 0, BASE, COUNT(log_words)),
           stopped(HUMPELKAAS_NOT_IN_CAPTURE, 0x40000000, 2, 1, 1, 0, 0));

    expect("H", ask(host(), guest(), access_to(0x1008, HUMPELKAAS_FETCH, 1, 8)),
           stopped(HUMPELKAAS_PERMISSION_FAULT, 0, 1, 3, 0, 0, 12));

    expect("J", ask(host(), off, reading(0x50008)),
           translated(0x90008, HUMPELKAAS_DEVICE_NGNRNE, HUMPELKAAS_OUTER_SHAREABLE, 0, 3));
    expect("K", ask(host(), off, reading(0x50009)), stopped(HUMPELKAAS_ALIGNMENT_FAULT, 0, 1, 0, 0, 0, 0));
    expect("J past PAMax", ask(host(), off, reading(UINT64_C(1) << 40)),
           stopped(HUMPELKAAS_ADDRESS_SIZE_FAULT, 0, 1, 0, 0, 0, 0));
}

/* With HCR_EL2.DC stage 1 is off and leaves the choice to stage 2: every memory type and shareability of its leaf. */
static void attributes(void)
{
    static const uint64_t devices[] = {
        HUMPELKAAS_DEVICE_NGNRNE, HUMPELKAAS_DEVICE_NGNRE, HUMPELKAAS_DEVICE_NGRE, HUMPELKAAS_DEVICE_GRE,
    };
    static const uint64_t caches[] = {HUMPELKAAS_NON_CACHEABLE, HUMPELKAAS_WRITE_THROUGH, HUMPELKAAS_WRITE_BACK};
    static const uint64_t shares[] = {HUMPELKAAS_NON_SHAREABLE, HUMPELKAAS_OUTER_SHAREABLE, HUMPELKAAS_INNER_SHAREABLE};
    static const uint64_t share_fields[] = {0, 2, 3};
    humpelkaas_el2 el2 = host();
    el2.hcr_el2 |= 1 << 12;

    reset();
    for (uint64_t i = 0; i < COUNT(devices); i++) {
        put(0x40002280, 0x907C3 | i << 2);
        expect("Device", ask(el2, guest(), reading(0x50008)),
               translated(0x90008, devices[i], HUMPELKAAS_OUTER_SHAREABLE, 0, 3));
        same("Device", "HUMPELKAAS_IS_NORMAL", HUMPELKAAS_IS_NORMAL(devices[i]), 0);
    }
    for (uint64_t outer = 0; outer < COUNT(caches); outer++)
        for (uint64_t inner = 0; inner < COUNT(caches); inner++)
            for (uint64_t share = 0; share < COUNT(shares); share++) {
                uint64_t memory = HUMPELKAAS_NORMAL(caches[outer], caches[inner]);
                int uncached = caches[outer] == HUMPELKAAS_NON_CACHEABLE && caches[inner] == HUMPELKAAS_NON_CACHEABLE;
                uint64_t shared = uncached ? (uint64_t)HUMPELKAAS_OUTER_SHAREABLE : shares[share];
                put(0x40002280, 0x904C3 | share_fields[share] << 8 | (outer + 1) << 4 | (inner + 1) << 2);
                expect("Normal", ask(el2, guest(), reading(0x50008)), translated(0x90008, memory, shared, 0, 3));
                same("Normal", "HUMPELKAAS_IS_NORMAL", HUMPELKAAS_IS_NORMAL(memory), 1);
                same("Normal", "HUMPELKAAS_OUTER", HUMPELKAAS_OUTER(memory), caches[outer]);
                same("Normal", "HUMPELKAAS_INNER", HUMPELKAAS_INNER(memory), caches[inner]);
            }
    put(0x40002280, 0x907D3); /* an inner cacheability that Arm reserves */
    expect("unsettled", ask(el2, guest(), reading(0x50008)), stopped(HUMPELKAAS_UNSETTLED, 0, 2, 3, 0, 0, 3));
}

static void expect_item(uint64_t item, humpelkaas_el2 el2, humpelkaas_el1 el1)
{
    expect("settings", ask(el2, el1, reading(0x1008)), refused(HUMPELKAAS_REFUSED_SETTINGS, item));
}

/* Each item of the settings, by the one register that fails it. */
static void settings(void)
{
    humpelkaas_el2 el2;
    humpelkaas_el1 el1;

    reset();
    el2 = host(), el2.pamax = 41, expect_item(1, el2, guest());
    el2 = host(), el2.hcr_el2 = 0x88000001, expect_item(2, el2, guest());
    el2 = host(), el2.hcr_el2 = 0x00000001, expect_item(3, el2, guest());
    el2 = host(), el2.sctlr_el2 = 0x2000000, expect_item(4, el2, guest());
    el1 = guest(), el1.sctlr_el1 = 0x2000005, expect_item(4, host(), el1);
    el1 = guest(), el1.tcr_el1 = 0x600800019, expect_item(5, host(), el1);
    el1 = guest(), el1.tcr_el1 = 0x200800028, expect_item(6, host(), el1);
    el1 = guest(), el1.tcr_el1 = 0x20080C019, expect_item(6, host(), el1); /* TG0 is 3 */
    el1 = guest(), el1.tcr_el1 = 0x280000019, expect_item(7, host(), el1);
    el1 = guest(), el1.tcr_el1 = 0x200190019, expect_item(7, host(), el1); /* TG1 is 0 */
    el2 = host(), el2.vtcr_el2 = 0x60059, expect_item(8, el2, guest());
    el2 = host(), el2.vtcr_el2 = 0x20068, expect_item(9, el2, guest());
    el2 = host(), el2.vtcr_el2 = 0x2C059, expect_item(9, el2, guest()); /* TG0 is 3 */
}

/* The other refusals of a question. For all of them `expect` sees that the whole log is kept. */
static void refusals(void)
{
    reset();
    expect("a log of 23 words", ask_a(bytes, sizeof words, BASE, HUMPELKAAS_LOG_WORDS - 1),
           refused(HUMPELKAAS_REFUSED_LOG, 0));
    expect("a capture past 2^48", ask_a(bytes, sizeof words, TOP - sizeof words + 1, COUNT(log_words)),
           refused(HUMPELKAAS_REFUSED_CAPTURE, 0));
    expect("kind 3", ask(host(), guest(), access_to(0x1008, 3, 0, 8)), refused(HUMPELKAAS_REFUSED_ACCESS, 0));
    expect("EL 2", ask(host(), guest(), access_to(0x1008, 0, 2, 8)), refused(HUMPELKAAS_REFUSED_ACCESS, 0));
    expect("size 3", ask(host(), guest(), access_to(0x1008, 0, 0, 3)), refused(HUMPELKAAS_REFUSED_ACCESS, 0));
}

/* ---- the batch and its line */

static void expect_batch(const char *what, humpelkaas_batch_answer got, humpelkaas_batch_answer wanted)
{
    same(what, "number", got.number, wanted.number);
    same(what, "item", got.item, wanted.item);
    same(what, "asked", got.ledger.asked, wanted.ledger.asked);
    same(what, "translated", got.ledger.translated, wanted.ledger.translated);
    same(what, "faulted", got.ledger.faulted, wanted.ledger.faulted);
    same(what, "absent", got.ledger.absent, wanted.ledger.absent);
    same(what, "unsettled", got.ledger.unsettled, wanted.ledger.unsettled);
}

/* The lists of a batch, with room for one address more than it takes: two that count, then 0. */
static const uint64_t addresses[HUMPELKAAS_MOST_BATCH + 1] = {0x1008, 0x2000};
static uint64_t outputs[COUNT(addresses)], numbers[COUNT(addresses)];

static humpelkaas_batch_answer batch_at(uint64_t base, humpelkaas_el1 el1, humpelkaas_access access, size_t asked,
                                        size_t outputs_length, size_t numbers_length)
{
    return humpelkaas_batch(bytes, sizeof words, base, host(), el1, access.kind, access.el, access.size,
                            addresses, asked, outputs, outputs_length, numbers, numbers_length);
}

static humpelkaas_batch_answer batch(size_t asked)
{
    return batch_at(BASE, guest(), reading(0), asked, asked, asked);
}

static humpelkaas_ledger figures(uint64_t asked, uint64_t moved, uint64_t faulted, uint64_t absent, uint64_t unsettled)
{
    humpelkaas_ledger ledger;
    ledger.asked = asked;
    ledger.translated = moved;
    ledger.faulted = faulted;
    ledger.absent = absent;
    ledger.unsettled = unsettled;
    return ledger;
}

static humpelkaas_batch_answer done(humpelkaas_ledger ledger)
{
    humpelkaas_batch_answer answer;
    answer.number = HUMPELKAAS_BATCH_DONE;
    answer.item = 0;
    answer.ledger = ledger;
    return answer;
}

static humpelkaas_batch_answer batch_refused(uint64_t number, uint64_t item)
{
    humpelkaas_batch_answer answer = done(figures(0, 0, 0, 0, 0));
    answer.number = number;
    answer.item = item;
    return answer;
}

/* Each refusal of a batch; both lists must be as they were after all of them. */
static void batch_refusals(void)
{
    humpelkaas_el1 item_6 = guest();
    item_6.tcr_el1 = 0x200800028;

    reset();
    fill(outputs, COUNT(outputs));
    fill(numbers, COUNT(numbers));
    expect_batch("a batch with a list of one output", batch_at(BASE, guest(), reading(0), 2, 1, 2),
                 batch_refused(HUMPELKAAS_REFUSED_BATCH_LISTS, 0));
    expect_batch("a batch with a list of one number", batch_at(BASE, guest(), reading(0), 2, 2, 1),
                 batch_refused(HUMPELKAAS_REFUSED_BATCH_LISTS, 0));
    expect_batch("a batch of 4097", batch(HUMPELKAAS_MOST_BATCH + 1), batch_refused(HUMPELKAAS_REFUSED_BATCH_LISTS, 0));
    expect_batch("a batch in a capture past 2^48", batch_at(TOP, guest(), reading(0), 2, 2, 2),
                 batch_refused(HUMPELKAAS_REFUSED_CAPTURE, 0));
    expect_batch("a batch with T0SZ 40", batch_at(BASE, item_6, reading(0), 2, 2, 2),
                 batch_refused(HUMPELKAAS_REFUSED_SETTINGS, 6));
    expect_batch("a batch of kind 3", batch_at(BASE, guest(), access_to(0, 3, 0, 8), 2, 2, 2),
                 batch_refused(HUMPELKAAS_REFUSED_ACCESS, 0));
    expect_batch("a batch of EL 2", batch_at(BASE, guest(), access_to(0, 0, 2, 8), 2, 2, 2),
                 batch_refused(HUMPELKAAS_REFUSED_ACCESS, 0));
    expect_batch("a batch of size 3", batch_at(BASE, guest(), access_to(0, 0, 0, 3), 2, 2, 2),
                 batch_refused(HUMPELKAAS_REFUSED_ACCESS, 0));
    kept("refused batches, outputs", outputs, 0, COUNT(outputs));
    kept("refused batches, numbers", numbers, 0, COUNT(numbers));
}

static void batches(void)
{
    reset();
    fill(outputs, COUNT(outputs));
    fill(numbers, COUNT(numbers));
    expect_batch("an empty batch", batch(0), done(figures(0, 0, 0, 0, 0)));
    expect_batch("a batch of two", batch(2), done(figures(2, 1, 1, 0, 0)));
    same("a batch of two", "output 0", outputs[0], 0x90008);
    same("a batch of two", "output 1", outputs[1], 0);
    same("a batch of two", "number 0", numbers[0], HUMPELKAAS_TRANSLATED);
    same("a batch of two", "number 1", numbers[1], HUMPELKAAS_TRANSLATION_FAULT);
    kept("a batch of two, outputs", outputs, 2, COUNT(outputs));
    kept("a batch of two, numbers", numbers, 2, COUNT(numbers));
    expect_batch("a batch of fetches at EL1", batch_at(BASE, guest(), access_to(0, HUMPELKAAS_FETCH, 1, 4), 2, 2, 2),
                 done(figures(2, 0, 2, 0, 0)));
    same("a batch of fetches at EL1", "number 0", numbers[0], HUMPELKAAS_PERMISSION_FAULT);
    expect_batch("a batch of 4096", batch(HUMPELKAAS_MOST_BATCH), done(figures(4096, 1, 4095, 0, 0)));
    kept("a batch of 4096, outputs", outputs, HUMPELKAAS_MOST_BATCH, COUNT(outputs));
    kept("a batch of 4096, numbers", numbers, HUMPELKAAS_MOST_BATCH, COUNT(numbers));
    put(0x40002280, 0x907D3);
    expect_batch("a batch with an unsettled answer", batch(2), done(figures(2, 0, 1, 0, 1)));
    expect_batch("a batch in a capture that begins at 0", batch_at(0, guest(), reading(0), 2, 2, 2),
                 done(figures(2, 0, 0, 2, 0)));
}

/* A ledger's line in a buffer of just its length: the bytes are the line's, and those past it are kept. */
static void expect_line(const char *line, humpelkaas_ledger ledger)
{
    size_t length = strlen(line);
    uint8_t buffer[HUMPELKAAS_LINE_BYTES + 1], untouched[sizeof buffer];
    memset(buffer, 0x5A, sizeof buffer);
    memset(untouched, 0x5A, sizeof untouched);

    same(line, "bytes in a buffer of none", humpelkaas_ledger_line(ledger, buffer, 0), 0);
    same(line, "bytes in a buffer that is one too short", humpelkaas_ledger_line(ledger, buffer, length - 1), 0);
    same(line, "short buffers kept", memcmp(buffer, untouched, sizeof buffer) == 0, 1);
    same(line, "bytes", humpelkaas_ledger_line(ledger, buffer, length), length);
    same(line, "written", memcmp(buffer, line, length) == 0, 1);
    same(line, "bytes in a longer buffer", humpelkaas_ledger_line(ledger, buffer, sizeof buffer), length);
    same(line, "written to a longer buffer", memcmp(buffer, line, length) == 0, 1);
    same(line, "bytes past the line kept", memcmp(buffer + length, untouched, sizeof buffer - length) == 0, 1);
}

static void lines(void)
{
    static const char longest[] = "asked 18446744073709551615 translated 18446744073709551615 "
                                  "faulted 18446744073709551615 absent 18446744073709551615 "
                                  "unsettled 18446744073709551615";
    reset();
    expect_line("asked 2 translated 1 faulted 1 absent 0 unsettled 0", batch(2).ledger);
    expect_line("asked 100 translated 1 faulted 20 absent 30 unsettled 49", figures(100, 1, 20, 30, 49));
    expect_line(longest, figures(UINT64_MAX, UINT64_MAX, UINT64_MAX, UINT64_MAX, UINT64_MAX));
    same("the longest line", "length", strlen(longest), HUMPELKAAS_LINE_BYTES);
}

/* ---- the audit */

/* The lists of an audit, with room for one more than it takes. */
static uint64_t grants[HUMPELKAAS_MOST_GRANTS + 1], counts[COUNT(grants)];
static uint64_t tables[HUMPELKAAS_MOST_TABLES + 1], levels[COUNT(tables)];

/* Case M's lists, and far behind them, for the limits, grants with gaps and tables that are not in the capture. */
static void reset_lists(void)
{
    for (size_t i = 0; i < COUNT(grants); i++) {
        grants[i] = UINT64_C(0x1000000000) + i * 0x2000;
        counts[i] = 0x1000;
    }
    for (size_t i = 0; i < COUNT(tables); i++) {
        tables[i] = UINT64_C(0x50000000) + i * 0x1000;
        levels[i] = 3;
    }
    grants[0] = 0x90000;
    grants[1] = 0x40003000;
    counts[1] = 0x3000;
    tables[0] = 0x40001000;
    levels[0] = 2;
    tables[1] = 0x40002000;
}

static humpelkaas_audit_answer audit_at(uint64_t base, size_t length, humpelkaas_el2 el2, size_t granted, size_t listed)
{
    return humpelkaas_audit(bytes, length, base, el2, grants, granted, counts, granted, tables, listed, levels, listed);
}

static humpelkaas_audit_answer audit(size_t granted, size_t listed)
{
    return audit_at(BASE, sizeof words, host(), granted, listed);
}

static void expect_audit(const char *what, humpelkaas_audit_answer got, uint64_t number, uint64_t address)
{
    same(what, "number", got.number, number);
    same(what, "item", got.item, 0);
    same(what, "address", got.address, address);
}

static void expect_audit_refused(const char *what, humpelkaas_audit_answer got, uint64_t number, uint64_t item)
{
    same(what, "number", got.number, number);
    same(what, "item", got.item, item);
    same(what, "address", got.address, 0);
}

static void audits(void)
{
    reset();
    reset_lists();
    expect_audit("M", audit(2, 2), HUMPELKAAS_CLEAN, 0);
    expect_audit("M without the first grant",
                 humpelkaas_audit(bytes, sizeof words, BASE, host(), grants + 1, 1, counts + 1, 1, tables, 2,
                                  levels, 2),
                 HUMPELKAAS_LEAF_OUTSIDE_GRANTS, 0x40002280);
    expect_audit("M without tables", audit(2, 0), HUMPELKAAS_TABLE_NOT_LISTED, 0x40000000);
    expect_audit("M without the level 3 table", audit(2, 1), HUMPELKAAS_TABLE_NOT_LISTED, 0x40001000);
    expect_audit("M without grants", audit(0, 2), HUMPELKAAS_LEAF_OUTSIDE_GRANTS, 0x40002008);
    expect_audit("M cut short", audit_at(BASE, 0x2FF8, host(), 2, 2), HUMPELKAAS_TABLE_NOT_IN_CAPTURE, 0x40002000);
    expect_audit("M with 256 grants", audit(HUMPELKAAS_MOST_GRANTS, 2), HUMPELKAAS_CLEAN, 0);
    expect_audit("M with 1024 tables", audit(2, HUMPELKAAS_MOST_TABLES), HUMPELKAAS_TABLE_NOT_IN_CAPTURE, 0x50002000);
    grants[1] = 0x40002000;
    counts[1] = 0x4000;
    expect_audit("M with the level 3 table granted", audit(2, 2), HUMPELKAAS_TABLE_TOUCHES_GRANT, 0x40002000);
}

static void audit_refusals(void)
{
    humpelkaas_el2 item_9 = host(), off = host();
    item_9.vtcr_el2 = 0x20068;
    off.hcr_el2 = 0x80000000;

    reset();
    reset_lists();
    expect_audit_refused("M in a capture past 2^48", audit_at(TOP, sizeof words, host(), 2, 2),
                         HUMPELKAAS_REFUSED_CAPTURE, 0);
    expect_audit_refused("M with T0SZ 40", audit_at(BASE, sizeof words, item_9, 2, 2), HUMPELKAAS_REFUSED_SETTINGS, 9);
    expect_audit_refused("M with 257 grants", audit(HUMPELKAAS_MOST_GRANTS + 1, 2), HUMPELKAAS_REFUSED_AUDIT_LISTS, 0);
    expect_audit_refused("M with 1025 tables", audit(2, HUMPELKAAS_MOST_TABLES + 1), HUMPELKAAS_REFUSED_AUDIT_LISTS, 0);
    expect_audit_refused("M with a grant that has no count",
                         humpelkaas_audit(bytes, sizeof words, BASE, host(), grants, 2, counts, 1, tables, 2,
                                          levels, 2),
                         HUMPELKAAS_REFUSED_AUDIT_LISTS, 0);
    expect_audit_refused("M with a table that has no level",
                         humpelkaas_audit(bytes, sizeof words, BASE, host(), grants, 2, counts, 2, tables, 2,
                                          levels, 1),
                         HUMPELKAAS_REFUSED_AUDIT_LISTS, 0);
    expect_audit_refused("M with stage 2 off", audit_at(BASE, sizeof words, off, 2, 2), HUMPELKAAS_REFUSED_ROOT, 0);
}

/* ---- larger granules */

/* 64KB at stage 2 and 16KB at stage 1, with 25 bits each: both roots are of level 3, and there are no other tables. */
static humpelkaas_el2 host_64k(void)
{
    humpelkaas_el2 el2 = host();
    el2.vtcr_el2 = 0x24027;
    return el2;
}

static humpelkaas_el1 guest_16k(void)
{
    humpelkaas_el1 el1 = guest();
    el1.tcr_el1 = 0x200808027;
    el1.ttbr0_el1 = 0x14000;
    return el1;
}

/* Stage 2 has the page of stage 1's root at IPA 0x10000, and data at IPA 0x50000. */
static void reset_granules(void)
{
    memset(words, 0, sizeof words);
    put(0x40000008, 0x400007FF);
    put(0x40000028, 0x907FF);
    put(0x40004010, 0x50743);
}

static void expect_mixed(const char *what, humpelkaas_answer got)
{
    static const uint64_t reads[] = {0x40000008, 0x40004010, 0x40000028};
    expect(what, got, translated(0x93FF8, write_back, HUMPELKAAS_INNER_SHAREABLE, 3, COUNT(reads)));
    for (size_t i = 0; i < COUNT(reads); i++)
        same(what, "a word of the log", log_words[i], reads[i]);
}

static void granules(void)
{
    humpelkaas_el1 upper = guest_16k();
    upper.tcr_el1 = 0x24027C080; /* TG1 is 1; the lower range is disabled, so its TG0 of 3 does not count */
    upper.ttbr0_el1 = 0;
    upper.ttbr1_el1 = 0x14000;

    reset_granules();
    expect_mixed("16KB over 64KB", ask(host_64k(), guest_16k(), reading(0xBFF8)));
    expect_mixed("16KB over 64KB in the upper range", ask(host_64k(), upper, reading(UINT64_C(0xFFFFFFFFFE00BFF8))));
    expect("the next page of 16KB", ask(host_64k(), guest_16k(), reading(0xC000)),
           stopped(HUMPELKAAS_TRANSLATION_FAULT, 0, 1, 3, 0, 0, 2));
}

static void audits_of_granules(void)
{
    humpelkaas_el2 el2 = host_64k();

    reset_granules();
    reset_lists();
    put(0x40000008, 0);
    grants[0] = 0x90000;
    counts[0] = 0x10000;
    expect_audit("64KB", audit_at(BASE, sizeof words, el2, 1, 0), HUMPELKAAS_CLEAN, 0);
    counts[0] = 0xF000;
    expect_audit("64KB with 60KB granted", audit_at(BASE, sizeof words, el2, 1, 0), HUMPELKAAS_LEAF_OUTSIDE_GRANTS,
                 0x40000028);
    tables[0] = 0x40004000;
    levels[0] = 3;
    expect_audit_refused("64KB with a table of 16KB", audit_at(BASE, sizeof words, el2, 1, 1),
                         HUMPELKAAS_REFUSED_AUDIT_LISTS, 0);
    el2.vtcr_el2 = 0x28027;
    counts[0] = 0x4000;
    expect_audit("16KB with a table of 16KB", audit_at(BASE, sizeof words, el2, 1, 1), HUMPELKAAS_LEAF_OUTSIDE_GRANTS,
                 0x40004010);
}

/* ---- core files */

/* Case A's capture as a core file: a note, then two banks that touch in memory. Their bytes are in the file the other
 * way round, right behind the headers and each other. */
#define LOW 0x3000
#define HIGH (sizeof words - LOW)
#define HIGH_AT (64 + 3 * 56)
#define LOW_AT (HIGH_AT + HIGH)

static uint8_t core[LOW_AT + LOW];

static void little(size_t at, uint64_t number, size_t count)
{
    for (size_t i = 0; i < count; i++)
        core[at + i] = (uint8_t)(number >> 8 * i);
}

static void program_header(size_t n, uint64_t type, uint64_t offset, uint64_t address, uint64_t size)
{
    size_t at = 64 + n * 56;
    little(at, type, 4);
    little(at + 8, offset, 8);
    little(at + 24, address, 8);
    little(at + 32, size, 8);
}

/* What is not tested holds MARK's bytes. */
static void elf_header(uint64_t headers)
{
    memset(core, 0x5A, sizeof core);
    memcpy(core, "\177ELF\002\001", 6);
    little(16, 4, 2);
    little(18, 183, 2);
    little(32, 64, 8);
    little(54, 56, 2);
    little(56, headers, 2);
}

static void reset_core(void)
{
    reset();
    elf_header(3);
    program_header(0, 4, 0, 0, UINT64_MAX);
    program_header(1, 1, LOW_AT, BASE, LOW);
    program_header(2, 1, HIGH_AT, BASE + LOW, HIGH);
    memcpy(core + LOW_AT, bytes, LOW);
    memcpy(core + HIGH_AT, bytes + LOW, HIGH);
}

/* Two words more than a bank list must have. */
static uint64_t bank_addresses[HUMPELKAAS_MOST_BANKS + 2], bank_offsets[COUNT(bank_addresses)];
static uint64_t bank_lengths[COUNT(bank_addresses)], bank_shorts[COUNT(bank_addresses)];

static humpelkaas_banks_answer banks_in(size_t length, size_t first, size_t second, size_t third, size_t fourth)
{
    fill(bank_addresses, COUNT(bank_addresses));
    fill(bank_offsets, COUNT(bank_offsets));
    fill(bank_lengths, COUNT(bank_lengths));
    fill(bank_shorts, COUNT(bank_shorts));
    return humpelkaas_core_banks(core, length, bank_addresses, first, bank_offsets, second, bank_lengths, third,
                                 bank_shorts, fourth);
}

static humpelkaas_banks_answer banks(size_t length)
{
    const size_t enough = HUMPELKAAS_MOST_BANKS;
    return banks_in(length, enough, enough, enough, enough);
}

static void expect_banks(const char *what, humpelkaas_banks_answer got, uint64_t number, uint64_t count)
{
    same(what, "number", got.number, number);
    same(what, "count", got.count, count);
    kept(what, bank_addresses, count, COUNT(bank_addresses));
    kept(what, bank_offsets, count, COUNT(bank_offsets));
    kept(what, bank_lengths, count, COUNT(bank_lengths));
    kept(what, bank_shorts, count, COUNT(bank_shorts));
}

static void expect_bank(const char *what, size_t n, uint64_t address, uint64_t offset, uint64_t length, uint64_t cut)
{
    same(what, "a bank's address", bank_addresses[n], address);
    same(what, "a bank's offset", bank_offsets[n], offset);
    same(what, "a bank's length", bank_lengths[n], length);
    same(what, "a bank's mark", bank_shorts[n], cut);
}

static void bank_lists(void)
{
    reset_core();
    expect_banks("a core file", banks(sizeof core), HUMPELKAAS_BANKS_LISTED, 2);
    expect_bank("a core file", 0, BASE, LOW_AT, LOW, 0);
    expect_bank("a core file", 1, BASE + LOW, HIGH_AT, HIGH, 0);
    expect_banks("a file cut in a bank", banks(LOW_AT + 5), HUMPELKAAS_BANKS_LISTED, 2);
    expect_bank("a file cut in a bank", 0, BASE, LOW_AT, 5, 1);
    expect_bank("a file cut in a bank", 1, BASE + LOW, HIGH_AT, HIGH, 0);
    expect_banks("a file cut before all banks", banks(HIGH_AT), HUMPELKAAS_BANKS_LISTED, 2);
    expect_bank("a file cut before all banks", 0, BASE, LOW_AT, 0, 1);
    expect_bank("a file cut before all banks", 1, BASE + LOW, HIGH_AT, 0, 1);
    expect_banks("lists of 66 words", banks_in(sizeof core, 66, 66, 66, 66), HUMPELKAAS_BANKS_LISTED, 2);

    elf_header(0);
    expect_banks("an ELF header alone", banks(64), HUMPELKAAS_BANKS_LISTED, 0);
    elf_header(HUMPELKAAS_MOST_BANKS + 1);
    for (size_t n = 0; n <= HUMPELKAAS_MOST_BANKS; n++)
        program_header(n, 1, 0, BASE, 0);
    expect_banks("65 banks", banks(sizeof core), HUMPELKAAS_REFUSED_CORE, 0);
    program_header(0, 4, 0, BASE, 0);
    expect_banks("64 banks", banks(sizeof core), HUMPELKAAS_BANKS_LISTED, HUMPELKAAS_MOST_BANKS);
    expect_bank("64 banks", HUMPELKAAS_MOST_BANKS - 1, BASE, 0, 0, 0);
}

/* Each field that is tested, one byte of it wrong; then what banks may not do. */
static void bank_refusals(void)
{
    static const size_t tested[] = {0, 1, 2, 3, 4, 5, 16, 17, 18, 19, 54, 55};
    const size_t enough = HUMPELKAAS_MOST_BANKS, few = enough - 1;

    for (size_t i = 0; i < COUNT(tested); i++) {
        reset_core();
        core[tested[i]] ^= 1;
        expect_banks("a header of another kind", banks(sizeof core), HUMPELKAAS_REFUSED_CORE, 0);
    }
    reset_core();
    expect_banks("a file of 63 bytes", banks(63), HUMPELKAAS_REFUSED_CORE, 0);
    expect_banks("a file cut in the program headers", banks(HIGH_AT - 1), HUMPELKAAS_REFUSED_CORE, 0);
    program_header(2, 1, HIGH_AT, BASE + LOW - 1, HIGH);
    expect_banks("banks that overlap in memory", banks(sizeof core), HUMPELKAAS_REFUSED_CORE, 0);
    program_header(2, 1, HIGH_AT, BASE + LOW, HIGH + 1);
    expect_banks("banks that overlap in the file", banks(sizeof core), HUMPELKAAS_REFUSED_CORE, 0);
    program_header(2, 1, HIGH_AT - 1, BASE + LOW, HIGH);
    expect_banks("a bank in the program headers", banks(sizeof core), HUMPELKAAS_REFUSED_CORE, 0);
    program_header(2, 1, 0, BASE + LOW, 1);
    expect_banks("a bank in the ELF header", banks(sizeof core), HUMPELKAAS_REFUSED_CORE, 0);

    reset_core();
    expect_banks("63 addresses", banks_in(sizeof core, few, enough, enough, enough), HUMPELKAAS_REFUSED_LOG, 0);
    expect_banks("63 offsets", banks_in(sizeof core, enough, few, enough, enough), HUMPELKAAS_REFUSED_LOG, 0);
    expect_banks("63 lengths", banks_in(sizeof core, enough, enough, few, enough), HUMPELKAAS_REFUSED_LOG, 0);
    expect_banks("63 marks", banks_in(sizeof core, enough, enough, enough, few), HUMPELKAAS_REFUSED_LOG, 0);
    expect_banks("63 words for no core file", banks_in(63, few, few, few, few), HUMPELKAAS_REFUSED_CORE, 0);
}

/* Case A of the core file's first bytes, with a log of so many words. */
static humpelkaas_answer ask_core(size_t length, size_t log_length)
{
    fill(log_words, COUNT(log_words));
    return humpelkaas_core_translate(core, length, host(), guest(), reading(0x1008), log_words, log_length);
}

static void core_questions(void)
{
    reset_core();
    expect_a("A in a core file", ask_core(sizeof core, COUNT(log_words)));
    expect_a("A in a core file with a log of 24 words", ask_core(sizeof core, HUMPELKAAS_LOG_WORDS));
    expect("A in a core file with a log of 23 words", ask_core(sizeof core, HUMPELKAAS_LOG_WORDS - 1),
           refused(HUMPELKAAS_REFUSED_LOG, 0));
    expect("A in no core file with a log of 23 words", ask_core(63, HUMPELKAAS_LOG_WORDS - 1),
           refused(HUMPELKAAS_REFUSED_CORE, 0));
    expect("A in a file cut in the last descriptor", ask_core(LOW_AT + 0x2287, COUNT(log_words)),
           stopped(HUMPELKAAS_NOT_IN_CAPTURE, 0x40002280, 2, 3, 0, 0, 14));
    expect_a("A in a file cut behind it", ask_core(LOW_AT + 0x2288, COUNT(log_words)));

    reset_core();
    program_header(2, 1, HIGH_AT, TOP - HIGH + 1, HIGH);
    expect("A with a bank past 2^48", ask_core(sizeof core, COUNT(log_words)), refused(HUMPELKAAS_REFUSED_CAPTURE, 0));
}

/* A descriptor of case A that lies across two banks which touch: the first word of the table behind LOW. */
static void across_banks(void)
{
    reset_core();
    memcpy(core + HIGH_AT, bytes + LOW + 4, HIGH - 4);
    program_header(1, 1, LOW_AT - 4, BASE, LOW + 4);
    program_header(2, 1, HIGH_AT, BASE + LOW + 4, HIGH - 4);
    memcpy(core + LOW_AT - 4, bytes, LOW + 4);
    expect_banks("banks that touch in a descriptor", banks(sizeof core), HUMPELKAAS_BANKS_LISTED, 2);
    expect("A across two banks", ask_core(sizeof core, COUNT(log_words)),
           stopped(HUMPELKAAS_NOT_IN_CAPTURE, 0x40003000, 1, 1, 0, 0, 3));
}

static humpelkaas_batch_answer core_batch(size_t length, size_t outputs_length)
{
    humpelkaas_access access = reading(0);
    return humpelkaas_core_batch(core, length, host(), guest(), access.kind, access.el, access.size,
                                 addresses, 2, outputs, outputs_length, numbers, 2);
}

static void core_batches(void)
{
    reset_core();
    fill(outputs, COUNT(outputs));
    fill(numbers, COUNT(numbers));
    expect_batch("a batch in no core file", core_batch(63, 1), batch_refused(HUMPELKAAS_REFUSED_CORE, 0));
    expect_batch("a batch in a core file with one output", core_batch(sizeof core, 1),
                 batch_refused(HUMPELKAAS_REFUSED_BATCH_LISTS, 0));
    kept("refused batches in a core file, outputs", outputs, 0, COUNT(outputs));
    kept("refused batches in a core file, numbers", numbers, 0, COUNT(numbers));
    expect_batch("a batch in a core file", core_batch(sizeof core, 2), done(figures(2, 1, 1, 0, 0)));
    same("a batch in a core file", "output 0", outputs[0], 0x90008);
    same("a batch in a core file", "output 1", outputs[1], 0);
    same("a batch in a core file", "number 0", numbers[0], HUMPELKAAS_TRANSLATED);
    same("a batch in a core file", "number 1", numbers[1], HUMPELKAAS_TRANSLATION_FAULT);
    kept("a batch in a core file, outputs", outputs, 2, COUNT(outputs));
    kept("a batch in a core file, numbers", numbers, 2, COUNT(numbers));
    expect_batch("a batch in a file cut before all banks", core_batch(HIGH_AT, 2), done(figures(2, 0, 0, 2, 0)));
}

static humpelkaas_audit_answer core_audit(size_t length)
{
    return humpelkaas_core_audit(core, length, host(), grants, 2, counts, 2, tables, 2, levels, 2);
}

static void core_audits(void)
{
    reset_core();
    reset_lists();
    expect_audit("M in a core file", core_audit(sizeof core), HUMPELKAAS_CLEAN, 0);
    expect_audit("M in a file cut in the last entry", core_audit(sizeof core - 1), HUMPELKAAS_TABLE_NOT_IN_CAPTURE,
                 0x40002000);
    expect_audit_refused("M in no core file", core_audit(63), HUMPELKAAS_REFUSED_CORE, 0);

    /* The last table in two banks, between two entries and then with the second one not there. */
    program_header(0, 1, LOW_AT, BASE, 0x2800);
    program_header(1, 1, LOW_AT + 0x2800, BASE + 0x2800, LOW - 0x2800);
    expect_audit("M with a table in two banks", core_audit(sizeof core), HUMPELKAAS_CLEAN, 0);
    program_header(1, 4, LOW_AT + 0x2800, BASE + 0x2800, LOW - 0x2800);
    expect_audit("M with half a table", core_audit(sizeof core), HUMPELKAAS_TABLE_NOT_IN_CAPTURE, 0x40002000);
    program_header(2, 1, HIGH_AT, TOP, HIGH);
    expect_audit_refused("M with a bank past 2^48", core_audit(sizeof core), HUMPELKAAS_REFUSED_CAPTURE, 0);
}

/* The answers' words are where the header says, with nothing between or behind them. */
static void layouts(void)
{
    same("humpelkaas_banks_answer", "size", sizeof(humpelkaas_banks_answer), 16);
    same("humpelkaas_banks_answer", "number", offsetof(humpelkaas_banks_answer, number), 0);
    same("humpelkaas_banks_answer", "count", offsetof(humpelkaas_banks_answer, count), 8);
    same("humpelkaas_answer", "size", sizeof(humpelkaas_answer), 12 * 8);
    same("humpelkaas_batch_answer", "size", sizeof(humpelkaas_batch_answer), 7 * 8);
    same("humpelkaas_audit_answer", "size", sizeof(humpelkaas_audit_answer), 3 * 8);
    same("humpelkaas_el2", "size", sizeof(humpelkaas_el2), 5 * 8);
    same("humpelkaas_el1", "size", sizeof(humpelkaas_el1), 5 * 8);
    same("humpelkaas_access", "size", sizeof(humpelkaas_access), 4 * 8);
}

int main(void)
{
    case_a();
    stops();
    attributes();
    settings();
    refusals();
    batch_refusals();
    batches();
    lines();
    audits();
    audit_refusals();
    granules();
    audits_of_granules();
    bank_lists();
    bank_refusals();
    core_questions();
    across_banks();
    core_batches();
    core_audits();
    layouts();
    printf("%u held, %u differ\n", held, differ);
    return differ == 0 ? 0 : 1;
}

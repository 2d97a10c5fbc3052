/*
 * Humpelkaas: where do a guest's addresses land?
 *
 * Answers from a memory capture of an Arm board, a raw one or a core file, by a walk of both stages of the guest's translation tables
 * as VMSAv8-64 has it for the Non-secure EL1&0 regime, and an audit of stage 2's tables against the memory
 * that the guest was granted. The granule is 4KB, 16KB or 64KB, for each stage and each half of stage 1 its own.
 *
 * What holds for every call:
 *
 * - Any numbers get an answer. Bad input is refused by a number from 10 to 17, and a refused call writes
 *   nothing.
 * - A list is a pointer and its number of elements, which are lent for the time of the call. A pointer must
 *   not be NULL, even with 0 elements, and must be aligned for its type: a capture and a buffer may begin at
 *   any byte.
 * - Memory that is written (a parameter without const) must not overlap any other memory that is passed in
 *   the same call. Memory that is only read may overlap.
 * - Nothing is allocated, kept after the call or shared between calls. There is no state: calls may run in
 *   several threads at once, as long as no memory that one of them writes is used by another.
 * - An answer that does not carry a value has 0 in its place.
 *
 * Link with -lhumpelkaas, or as `pkg-config --cflags --libs humpelkaas` says. C99 and C++11, x86-64 with the
 * System V ABI.
 */
#ifndef HUMPELKAAS_H
#define HUMPELKAAS_H

#include <stddef.h>
#include <stdint.h>

#ifdef __cplusplus
extern "C" {
#endif

/* ---- limits */

enum humpelkaas_limit {
    HUMPELKAAS_LOG_WORDS = 24,     /* a log has at least so many words: no access reads more descriptors */
    HUMPELKAAS_MOST_BATCH = 4096,  /* addresses in a batch */
    HUMPELKAAS_MOST_GRANTS = 256,  /* grants in an audit */
    HUMPELKAAS_MOST_TABLES = 1024, /* tables in an audit, without the root */
    HUMPELKAAS_MOST_BANKS = 64,    /* banks in a core file; a bank list has at least so many words */
    HUMPELKAAS_LINE_BYTES = 146    /* a buffer of so many bytes has room for every ledger's line */
};

/* ---- what is asked */

/* PAMax (the board's physical address size in bits) and the hypervisor's registers: what stage 2 goes by. */
typedef struct humpelkaas_el2 {
    uint64_t pamax;
    uint64_t hcr_el2;
    uint64_t vtcr_el2;
    uint64_t vttbr_el2;
    uint64_t sctlr_el2;
} humpelkaas_el2;

/* The guest's registers. */
typedef struct humpelkaas_el1 {
    uint64_t sctlr_el1;
    uint64_t tcr_el1;
    uint64_t ttbr0_el1;
    uint64_t ttbr1_el1;
    uint64_t mair_el1;
} humpelkaas_el1;

/* What an access does. */
enum humpelkaas_kind {
    HUMPELKAAS_READ = 0,
    HUMPELKAAS_WRITE = 1,
    HUMPELKAAS_FETCH = 2
};

/* One access by the guest. */
typedef struct humpelkaas_access {
    uint64_t address; /* virtual */
    uint64_t kind;    /* of enum humpelkaas_kind */
    uint64_t el;      /* 0 or 1 */
    uint64_t size;    /* in bytes: 1, 2, 4, 8 or 16 */
} humpelkaas_access;

/* ---- what is answered */

/* The number of an answer. */
enum humpelkaas_number {
    HUMPELKAAS_TRANSLATED = 0,
    HUMPELKAAS_TRANSLATION_FAULT = 1,
    HUMPELKAAS_ADDRESS_SIZE_FAULT = 2, /* an address of more bits than IPS or PS says, or than PAMax */
    HUMPELKAAS_ACCESS_FLAG_FAULT = 3,
    HUMPELKAAS_PERMISSION_FAULT = 4,
    HUMPELKAAS_ALIGNMENT_FAULT = 5,
    HUMPELKAAS_NOT_IN_CAPTURE = 6, /* the next descriptor is not wholly in the capture */
    HUMPELKAAS_UNSETTLED = 7,      /* Arm leaves open what the descriptor means */

    /* Refusals. Each call has its own in its own order, below, and gives the first that applies. */
    HUMPELKAAS_REFUSED_LOG = 10,         /* the log has fewer than 24 words, or a bank list fewer than 64 */
    HUMPELKAAS_REFUSED_CAPTURE = 11,     /* the capture's base plus its length, or a bank's address plus its size, is over 2^48 */
    HUMPELKAAS_REFUSED_SETTINGS = 12,    /* a register is not accepted: the item says which */
    HUMPELKAAS_REFUSED_ACCESS = 13,      /* a kind, EL or size that is not one of those above */
    HUMPELKAAS_REFUSED_BATCH_LISTS = 14, /* a batch's lists differ in length, or have over 4096 words */
    HUMPELKAAS_REFUSED_AUDIT_LISTS = 15, /* the audit's lists are malformed: humpelkaas_audit says what they must be */
    HUMPELKAAS_REFUSED_ROOT = 16,        /* stage 2 is off, or it faults every address before any read */
    HUMPELKAAS_REFUSED_CORE = 17         /* no core file that can be read: humpelkaas_core_banks says what it must be */
};

/*
 * The items of the settings, in the order in which they are tested. Stage 1 is on if SCTLR_EL1.M is 1 and
 * HCR_EL2.DC is 0, stage 2 if HCR_EL2.VM or DC is 1.
 *
 *   item  if                       must hold
 *   1     always                   PAMax is 32, 36, 40, 42, 44 or 48
 *   2     always                   HCR_EL2.TGE is 0
 *   3     always                   HCR_EL2.RW is 1
 *   4     stage 1 on; stage 2 on   SCTLR_EL1.EE is 0; SCTLR_EL2.EE is 0
 *   5     stage 1 on               TCR_EL1.IPS is at most 5
 *   6     stage 1 on, EPD0 is 0    TCR_EL1.T0SZ is 16 to 39 and TG0 is not 3
 *   7     stage 1 on, EPD1 is 0    TCR_EL1.T1SZ is 16 to 39 and TG1 is not 0
 *   8     stage 2 on               VTCR_EL2.PS is at most 5
 *   9     stage 2 on               VTCR_EL2.T0SZ is 16 to 39, TG0 is not 3 and 64 - T0SZ is at most PAMax
 *
 * A granule of 4KB, 16KB or 64KB is 0, 2 or 1 in TG0, and 2, 1 or 3 in TG1.
 *
 * An audit goes by no register of the guest: it tests 1, 2, 3, 4 for SCTLR_EL2, 8 and 9.
 */

/*
 * Memory types. These codes are this interface's own, not Arm's encodings; the definitions that the library
 * is proved against have them (specs/Words.antt of the crate `exported`).
 */
enum humpelkaas_device {
    HUMPELKAAS_DEVICE_NGNRNE = 0,
    HUMPELKAAS_DEVICE_NGNRE = 1,
    HUMPELKAAS_DEVICE_NGRE = 2,
    HUMPELKAAS_DEVICE_GRE = 3
};

enum humpelkaas_cacheability {
    HUMPELKAAS_NON_CACHEABLE = 0,
    HUMPELKAAS_WRITE_THROUGH = 1,
    HUMPELKAAS_WRITE_BACK = 2
};

/* The code of Normal memory from its outer and its inner cacheability. */
#define HUMPELKAAS_NORMAL(outer, inner) (16 + 4 * (outer) + (inner))

/* Whether a code is Normal memory's, and the cacheability that it then has. */
#define HUMPELKAAS_IS_NORMAL(memory) ((memory) >= 16)
#define HUMPELKAAS_OUTER(memory) (((memory) - 16) / 4)
#define HUMPELKAAS_INNER(memory) (((memory) - 16) % 4)

/* Shareability, with codes of this interface's own too. */
enum humpelkaas_shareability {
    HUMPELKAAS_NON_SHAREABLE = 0,
    HUMPELKAAS_OUTER_SHAREABLE = 2,
    HUMPELKAAS_INNER_SHAREABLE = 3
};

/*
 * The answer to one question: its number and what it carries.
 *
 *   number   carries
 *   0        address, memory, shareability, level1, level2, reads
 *   1 to 4   stage, level, reads; with stage 2 also onwalk and ipa
 *   5        stage, reads; with stage 2 also ipa
 *   6        address, stage, level, reads; with stage 2 also onwalk
 *   7        stage, level, reads; with stage 2 also onwalk
 *   12       item
 *
 * Other refusals carry nothing.
 */
typedef struct humpelkaas_answer {
    uint64_t number;       /* of enum humpelkaas_number */
    uint64_t item;         /* the first item of the settings that fails */
    uint64_t address;      /* physical: 0 where the access lands, 6 the descriptor that is not in the capture */
    uint64_t memory;       /* of enum humpelkaas_device, or HUMPELKAAS_NORMAL of two of enum humpelkaas_cacheability */
    uint64_t shareability; /* of enum humpelkaas_shareability */
    uint64_t level1;       /* the level of stage 1's leaf; 0 if the stage is off */
    uint64_t level2;       /* the level of stage 2's leaf; 0 if the stage is off */
    uint64_t stage;        /* 1 or 2 */
    uint64_t level;        /* 0 to 3 */
    uint64_t onwalk;       /* 1 if stage 2 was translating the address of a stage 1 descriptor */
    uint64_t ipa;          /* the intermediate physical address that stage 2 was translating */
    uint64_t reads;        /* how many descriptors were read */
} humpelkaas_answer;

/* The figures of a batch: how many of its answers there are, and of each sort. */
typedef struct humpelkaas_ledger {
    uint64_t asked;
    uint64_t translated; /* answer 0 */
    uint64_t faulted;    /* answers 1 to 5 */
    uint64_t absent;     /* answer 6 */
    uint64_t unsettled;  /* answer 7 */
} humpelkaas_ledger;

/* The number of a batch that was not refused. A refused one has the refusal's, of enum humpelkaas_number. */
enum humpelkaas_batch_number {
    HUMPELKAAS_BATCH_DONE = 0
};

typedef struct humpelkaas_batch_answer {
    uint64_t number;          /* HUMPELKAAS_BATCH_DONE, or a refusal's */
    uint64_t item;            /* refusal 12: the first item of the settings that fails */
    humpelkaas_ledger ledger; /* 0 throughout if refused */
} humpelkaas_batch_answer;

/* The number of an audit that was not refused. A refused one has the refusal's, of enum humpelkaas_number. */
enum humpelkaas_finding {
    HUMPELKAAS_CLEAN = 0,
    HUMPELKAAS_TABLE_NOT_IN_CAPTURE = 1, /* the table is not wholly in the capture */
    HUMPELKAAS_TABLE_TOUCHES_GRANT = 2,  /* the table shares a byte with a grant */
    HUMPELKAAS_TABLE_NOT_LISTED = 3,     /* an entry's next table is not listed at the next level */
    HUMPELKAAS_LEAF_OUTSIDE_GRANTS = 4   /* an entry's range is not inside one grant */
};

typedef struct humpelkaas_audit_answer {
    uint64_t number;  /* of enum humpelkaas_finding, or a refusal's */
    uint64_t item;    /* refusal 12: the first item of the settings that fails */
    uint64_t address; /* the physical address of the table (findings 1 and 2) or of the entry (3 and 4) */
} humpelkaas_audit_answer;

/* ---- calls */

/*
 * One question: where does an access land?
 *
 * Takes a capture (length bytes, the first at the physical address base), the registers and an access. A
 * capture may be empty (length 0). Descriptors in it are little-endian, and one that is not wholly in it is
 * never read: that is answer 6.
 *
 * Writes the physical address of each descriptor read, in the order of the reads, from word 0 of the log on:
 * as many words as the answer has reads. All other words of the log keep their values. The log has log_length
 * words, 24 or more.
 *
 * Refusals, in this order: 10, 11, 12, 13. A refused question reads no descriptor and leaves the whole log as
 * it was.
 */
humpelkaas_answer humpelkaas_translate(const uint8_t *bytes, size_t length, uint64_t base, humpelkaas_el2 el2,
                                       humpelkaas_el1 el1, humpelkaas_access access, uint64_t *log, size_t log_length);

/*
 * A batch: the same question for up to 4096 addresses, with one kind, EL and size for all.
 *
 * Takes a capture and registers as humpelkaas_translate does, the kind, EL and size as in humpelkaas_access,
 * and the addresses. No address is a batch too: its figures are 0.
 *
 * Writes, for each address, outputs[i] and numbers[i]: the physical address where it lands and the number of
 * its answer, 0 to 7, as humpelkaas_translate has them for that address. An address that is not translated
 * has output 0. The three lists must have one length. The answer has the figures of all numbers.
 *
 * Refusals, in this order: 14, 11, 12, 13. A refused batch leaves both lists as they were.
 */
humpelkaas_batch_answer humpelkaas_batch(const uint8_t *bytes, size_t length, uint64_t base, humpelkaas_el2 el2,
                                         humpelkaas_el1 el1, uint64_t kind, uint64_t el, uint64_t size,
                                         const uint64_t *addresses, size_t addresses_length,
                                         uint64_t *outputs, size_t outputs_length,
                                         uint64_t *numbers, size_t numbers_length);

/*
 * An audit: do stage 2's tables keep a guest within the memory that it was granted?
 *
 * Takes a capture as humpelkaas_translate does, the hypervisor's registers, and two pairs of lists:
 *
 * - grants[i] and counts[i]: a granted range's physical address and its bytes. At most 256. Each address and
 *   count is a multiple of 4096, each count at least 4096, each range ends by 2^48, and the ranges ascend
 *   with a gap between neighbours: ranges that meet are given as one.
 * - tables[i] and levels[i]: the physical address of a stage 2 table other than the root, and its level, 1 to
 *   3. At most 1024. A table has as many bytes as stage 2's granule (4096 with stage 2 off), lies at a multiple
 *   of them and ends by 2^48, and they strictly ascend by address, then by level. The root is VTTBR_EL2's, with
 *   all tables that are concatenated to it, and need not be listed.
 *
 * Writes nothing.
 *
 * The answer is the first finding, with its address, or clean. The root is examined first, then each listed
 * table, whether or not an entry leads to it: first whether the table has finding 1, then 2, then each entry
 * in ascending order for 3 or 4.
 *
 * A clean audit is a promise about every question with the same PAMax and hypervisor's registers, over this
 * capture or one of the same bounds with the same bytes in the root and the listed tables: each stage 1
 * descriptor read and each translated address lies in a grant, each stage 2 descriptor read in the root or a
 * listed table, whatever the guest's registers and memory hold.
 *
 * Refusals, in this order: 11, 12, 15, 16.
 */
humpelkaas_audit_answer humpelkaas_audit(const uint8_t *bytes, size_t length, uint64_t base, humpelkaas_el2 el2,
                                         const uint64_t *grants, size_t grants_length,
                                         const uint64_t *counts, size_t counts_length,
                                         const uint64_t *tables, size_t tables_length,
                                         const uint64_t *levels, size_t levels_length);

/* ---- core files */

/* The answer of a bank list. */
enum humpelkaas_banks_number {
    HUMPELKAAS_BANKS_LISTED = 0
};

typedef struct humpelkaas_banks_answer {
    uint64_t number; /* HUMPELKAAS_BANKS_LISTED, or a refusal's */
    uint64_t count;  /* how many banks there are */
} humpelkaas_banks_answer;

/*
 * The banks of a core file: which physical memory it has.
 *
 * Takes the bytes of an ELF64 core file, as a debugger writes it. Each program header of type 1 (loadable) is
 * a bank: a physical address (p_paddr), an offset in the file and a size (p_filesz). Other program headers,
 * sections and notes are not looked at.
 *
 * Writes, for each bank in the order of the headers, addresses[i], offsets[i], lengths[i] and shorts[i]: its
 * physical address, its offset, how many of its bytes are in the file, and 1 if these are fewer than its
 * header says (the file was cut), else 0. Each list has at least 64 words, of which the others keep their values.
 *
 * Refusals, in this order: 17, 10. 17 is given exactly when
 *
 * - the 64 bytes of the ELF header are not all there, or it is not of this kind: magic, class 64, little-endian,
 *   type 4, machine 183, program headers of 56 bytes;
 * - the program headers are not wholly in the file: there are as many as e_phnum says, also for 0 and 0xFFFF;
 * - there are over 64 banks, or one starts before the end of the one before it, by the sizes in their headers;
 * - a byte of the file lies in two banks, or in a bank and the ELF header or the program headers.
 */
humpelkaas_banks_answer humpelkaas_core_banks(const uint8_t *file, size_t length,
                                              uint64_t *addresses, size_t addresses_length,
                                              uint64_t *offsets, size_t offsets_length,
                                              uint64_t *lengths, size_t lengths_length,
                                              uint64_t *shorts, size_t shorts_length);

/*
 * A question, a batch and an audit over a core file, by its bytes. They are those of a raw capture, but that:
 *
 * - a descriptor is there if all its eight bytes are there in one bank. One that lies half in a bank, or across
 *   two that touch, is not in the capture;
 * - 17 is refused before all else, and 11 is any bank whose address plus size, by its header, is over 2^48;
 * - what a clean audit promises holds for files with the same length and the same ELF and program headers.
 */
humpelkaas_answer humpelkaas_core_translate(const uint8_t *file, size_t length, humpelkaas_el2 el2,
                                            humpelkaas_el1 el1, humpelkaas_access access, uint64_t *log, size_t log_length);

humpelkaas_batch_answer humpelkaas_core_batch(const uint8_t *file, size_t length, humpelkaas_el2 el2,
                                              humpelkaas_el1 el1, uint64_t kind, uint64_t el, uint64_t size,
                                              const uint64_t *addresses, size_t addresses_length,
                                              uint64_t *outputs, size_t outputs_length,
                                              uint64_t *numbers, size_t numbers_length);

humpelkaas_audit_answer humpelkaas_core_audit(const uint8_t *file, size_t length, humpelkaas_el2 el2,
                                              const uint64_t *grants, size_t grants_length,
                                              const uint64_t *counts, size_t counts_length,
                                              const uint64_t *tables, size_t tables_length,
                                              const uint64_t *levels, size_t levels_length);

/* ---- the ledger */

/*
 * A ledger's line, such as `asked 2 translated 1 faulted 1 absent 0 unsettled 0`.
 *
 * Takes any ledger, a batch's or one that was added up from several.
 *
 * Writes the line's ASCII bytes over the first bytes of the buffer, with no newline and no NUL after them,
 * and gives how many they are. All other bytes of the buffer keep their values. HUMPELKAAS_LINE_BYTES are
 * enough for every ledger.
 *
 * If the buffer is too short for the line, gives 0 and leaves the whole buffer as it was.
 */
uint64_t humpelkaas_ledger_line(humpelkaas_ledger ledger, uint8_t *buffer, size_t buffer_length);

#ifdef __cplusplus
}
#endif

#endif

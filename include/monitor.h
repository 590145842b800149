/*
 * The core of the lift monitor for C hosts. Link target/staticlib/libdoor.a, which `.ci/library` writes.
 *
 * The host keeps a machine in three buffers and lends them, each as a pointer and a length in bytes:
 *
 *   memory  4,096 x N bytes, N from 3 to 8,192; page p starts at byte 4,096 x p;
 *   table   N bytes, one a page: bits 2:0 owner, bit 3 valid, bits 4, 5, 6 permission for VMPL 1, 2, 3;
 *   sheet   512 bytes, 16 vCPU records of 32.
 *
 * To tell the firmware where the monitor is, monitor_announce is lent a secrets page instead; monitor_discover, which reads it, is lent such a page, and 32 bytes
 * for what it finds (fields).
 *
 * Any lengths, numbers and bytes may be given: a wrong one has its answer. Three things are the caller's part. A pointer is fit for its length and is never
 * null, also where the length is 0; a buffer that is not const does not overlap another of the same call; and nobody else uses the buffers meanwhile.
 * Nothing outside the buffers is written, and what a function leaves is settled for every input. Launch, a store, a mark, monitor_announce and
 * monitor_discover change no byte unless they answer 0; a call changes none if it answers 1 or 3.
 */
#ifndef MONITOR_H
#define MONITOR_H

#include <stddef.h>
#include <stdint.h>

#ifdef __cplusplus
extern "C" {
#endif

/* What monitor_launch answers. Where more than one refusal would fit, it is the lowest number. */
enum {
    MONITOR_MADE = 0,         /* the machine is made */
    MONITOR_WRONG_SIZE = 1,   /* n is not from 3 to 8,192 or not the table's length, or memory is not 4,096 x n bytes, or the sheet not 512 */
    MONITOR_OUT_OF_RANGE = 2, /* a page is not below n (of the monitor's, any), or valid_below is above n, or monitor_count is 0 */
    MONITOR_AREAS_MEET = 3,   /* two of the three areas (monitor, VMSA, calling page) meet */
    MONITOR_UNFIT_VMSA = 4    /* the VMSA's VMPL is not 1 to 3, or bit 12 of its EFER is clear */
};

/* What monitor_store and monitor_mark answer. */
enum {
    MONITOR_DONE = 0,
    MONITOR_REFUSED = 1
};

/*
 * What monitor_announce and monitor_discover answer. Where more than one refusal would fit, it is the one that is tested first: in both a length (7) before all
 * others, and 1 to 5 in this order; no monitor (6) is tested after them by monitor_announce, and before them by monitor_discover.
 */
enum {
    MONITOR_TOLD = 0,           /* it is written, or read */
    MONITOR_UNALIGNED_BASE = 1, /* the base is not a multiple of 4,096 */
    MONITOR_UNALIGNED_SIZE = 2, /* the size is not a multiple of 4,096 */
    MONITOR_UNALIGNED_AREA = 3, /* the area is not a multiple of 4,096 */
    MONITOR_PAST_END = 4,       /* the range passes the end of 64-bit addresses: base plus size is above 2^64 */
    MONITOR_AREA_INSIDE = 5,    /* the area is inside the range: at the base or above it, and below base plus size */
    MONITOR_NO_MONITOR = 6,     /* the size is 0, which means no monitor */
    MONITOR_WRONG_LENGTH = 7    /* the page is not 4,096 bytes, or the fields are not 32 */
};

/*
 * Launches a machine of n pages.
 *
 * The monitor has monitor_count pages (at least 1) from monitor_first on; vmsa_page and calling_page are the startup vCPU's; apic_id is its APIC ID; the
 * pages below valid_below (0 to n) are valid. The VMSA is read: VMPL at offset 0xCA (one byte), EFER at 0xD0 and SEV features at 0x3B0 (eight bytes each).
 *
 * Where it answers MONITOR_MADE, the table is 0x0A on the monitor's pages, 0x0D on the VMSA, 0x79 on the calling page, 0x78 on the other pages below
 * valid_below and 0x00 on the rest; record 0 of the sheet is the startup vCPU, live, not running and holding nothing, and the other records are
 * zeros; bytes 0 and 1 of the calling page are 0.
 */
uint32_t monitor_launch(uint8_t *memory, size_t memory_length,
                        uint8_t *table, size_t table_length,
                        uint8_t *sheet, size_t sheet_length,
                        size_t n, size_t monitor_first, size_t monitor_count,
                        size_t vmsa_page, size_t calling_page,
                        uint32_t apic_id, size_t valid_below);

/*
 * Stores bytes in a page, from offset on, as software of a VMPL would.
 *
 * It is done exactly when memory and table are of the right sizes, vmpl is 1 to 3, page is below N, offset plus bytes_length is at most 4,096, and the page is
 * valid and permitted to that VMPL. No bytes at all are judged in the same way.
 */
uint32_t monitor_store(uint8_t *memory, size_t memory_length,
                       const uint8_t *table, size_t table_length,
                       uint8_t vmpl, size_t page, size_t offset,
                       const uint8_t *bytes, size_t bytes_length);

/*
 * Marks the vCPU of a record as running (1) or stopped (0): byte +2 of the record.
 *
 * It is done exactly when the sheet is 512 bytes, record is 0 to 15 and live (its byte +0 is 1), and running is 0 or 1.
 */
uint32_t monitor_mark(uint8_t *sheet, size_t sheet_length, size_t record, uint8_t running);

/*
 * Carries out a call by the vCPU of a record (caller): 0 handled, 1 no call, 2 gone, 3 bad machine.
 *
 * The registers are 48 bytes, eight each, little-endian: RAX, RCX, RDX, R8, R9, and the exit reason. Where it is handled, RAX is the call's code and byte 0 of
 * the caller's calling page (pending) is 0. Where the vCPU deleted itself (gone), the registers and its pending byte are as they were. After both, byte 1 of the
 * startup's calling page (the flag) is 1 if a pool page is free, else 0.
 *
 * A code that refuses, which is any but 0 and 0x80000000 (incomplete), has changed nothing beyond RAX and these two bytes, with one exception: where Pvalidate
 * or Deposit (call 1 or 4) is refused at an entry of its list, the index of that entry is stored in the list, and the entries done before it stand.
 */
uint32_t monitor_call(uint8_t *memory, size_t memory_length,
                      uint8_t *table, size_t table_length,
                      uint8_t *sheet, size_t sheet_length,
                      uint8_t *registers, size_t registers_length, size_t caller);

/*
 * Writes where the monitor is into a secrets page of 4,096 bytes, for the firmware.
 *
 * base is the address where the monitor's pages start, size how many bytes they are, area the address of the startup vCPU's calling area, vmpl the guest's VMPL
 * (any is taken). After a launch that answered MONITOR_MADE they are 4,096 x monitor_first, 4,096 x monitor_count, 4,096 x calling_page and byte +1 of record 0.
 *
 * Where it answers MONITOR_TOLD, bytes 0x140 to 0x15F of the page are base, size and area (eight bytes each), the version 1 (four), vmpl (one) and three of 0,
 * little-endian; the other 4,064 are as they were, the keys of VMPL 0 among them: to clear those is the host's part.
 */
uint32_t monitor_announce(uint8_t *page, size_t page_length,
                          uint64_t base, uint64_t size, uint64_t area, uint8_t vmpl);

/*
 * Reads from a secrets page of 4,096 bytes where the monitor is, as firmware would.
 *
 * A page with size 0 is MONITOR_NO_MONITOR, whatever else stands there. Version, VMPL and the three reserved bytes are not judged. Where it answers MONITOR_TOLD,
 * the 32 bytes of fields are bytes 0x140 to 0x15C of the page as they stand there, and three of 0.
 */
uint32_t monitor_discover(const uint8_t *page, size_t page_length,
                          uint8_t *fields, size_t fields_length);

#ifdef __cplusplus
}
#endif

#endif

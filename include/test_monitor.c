/* The core called from C: the sixteen pages of document 01, a store, a mark, each of the eight calls, lists that are refused midway, and the discovery fields of
 * document 02. The last line is 'N passed, M failed'. */
#include <stdio.h>
#include <string.h>

#include "monitor.h"

enum { N = 16, PAGE = 4096, GUARD = 16 };

/* What a call comes back with, and the codes that document 01 gives a name. */
enum { HANDLED, NO_CALL, GONE, BAD_MACHINE };
static const uint64_t ADDRESS = 0x80000003, PARAMETER = 0x80000005, REQUEST = 0x80000006;

/* Bytes after each buffer that nothing may write. */
static uint8_t memory[N * PAGE + GUARD], table[N + GUARD], sheet[512 + GUARD], registers[48 + GUARD];
static uint8_t memory_before[sizeof memory], table_before[sizeof table], sheet_before[sizeof sheet], registers_before[sizeof registers];

/* A secrets page and fields, with such bytes before them too. */
static uint8_t guarded_secrets[GUARD + PAGE + GUARD], guarded_fields[GUARD + 32 + GUARD];
static uint8_t secrets_before[sizeof guarded_secrets], fields_before[sizeof guarded_fields];
static uint8_t *const secrets = guarded_secrets + GUARD, *const fields = guarded_fields + GUARD;

static int passed, failed;

static void check(const char *name, int holds)
{
    if (holds) {
        passed++;
    } else {
        failed++;
        printf("failed: %s\n", name);
    }
}

static void remember(void)
{
    memcpy(memory_before, memory, sizeof memory);
    memcpy(table_before, table, sizeof table);
    memcpy(sheet_before, sheet, sizeof sheet);
    memcpy(registers_before, registers, sizeof registers);
}

static int unchanged(void)
{
    return memcmp(memory, memory_before, sizeof memory) == 0 && memcmp(table, table_before, sizeof table) == 0
        && memcmp(sheet, sheet_before, sizeof sheet) == 0 && memcmp(registers, registers_before, sizeof registers) == 0;
}

/* Monitor 12 to 15, VMSA 11, V 8. */
static uint32_t launch(size_t sheet_length, size_t calling_page, size_t valid_below)
{
    return monitor_launch(memory, N * PAGE, table, N, sheet, sheet_length, N, 12, 4, 11, calling_page, 0x01020304, valid_below);
}

static uint32_t store(uint8_t vmpl, size_t page, size_t offset, const char *bytes)
{
    return monitor_store(memory, N * PAGE, table, N, vmpl, page, offset, (const uint8_t *)bytes, strlen(bytes));
}

static void put(uint8_t *at, uint64_t value)
{
    for (int byte = 0; byte < 8; byte++) {
        at[byte] = (uint8_t)(value >> 8 * byte);
    }
}

/* The registers of a call, and the pending byte of the startup's calling page, which is page 10. */
static void ask(uint64_t rax, uint64_t rcx, uint64_t rdx, uint64_t r8)
{
    memset(registers + 48, 0xEE, GUARD);
    put(registers, rax);
    put(registers + 8, rcx);
    put(registers + 16, rdx);
    put(registers + 24, r8);
    put(registers + 32, 0x1234);
    put(registers + 40, 0x403);
    memory[10 * PAGE] = 1;
    remember();
}

static uint32_t call(size_t caller)
{
    return monitor_call(memory, N * PAGE, table, N, sheet, 512, registers, 48, caller);
}

/* The call is handled with this code. Beside RAX and the caller's pending byte, it has changed what was written into the buffers' copies. */
static int handled_by(size_t caller, size_t calling_page, uint64_t code)
{
    put(registers_before, code);
    memory_before[calling_page * PAGE] = 0;
    return call(caller) == HANDLED && unchanged();
}

/* The same of the startup's call. */
static int handled(uint64_t code)
{
    return handled_by(0, 10, code);
}

static void launches(void)
{
    static const uint8_t whole[N] = {0x78, 0x78, 0x78, 0x78, 0x78, 0x78, 0x78, 0x78, 0x00, 0x00, 0x79, 0x0D, 0x0A, 0x0A, 0x0A, 0x0A};
    static const uint8_t record_0[32] = {1, 1, 0, 0, 4, 3, 2, 1, 11, 0, 0, 0, 10, 0, 0, 0, 0, 0, 0, 0, 0, 0, 0, 0, 9};

    memset(table, 0xEE, sizeof table);
    memset(sheet, 0xEE, sizeof sheet);
    memory[10 * PAGE] = memory[10 * PAGE + 1] = memory[10 * PAGE + 2] = 0xEE;
    memory[11 * PAGE + 0x3B0] = 9;
    remember();
    check("a blank VMSA is unfit", launch(512, 10, 8) == MONITOR_UNFIT_VMSA && unchanged());

    memory[0xB0CA] = 1;
    memory[0xB0D1] = 0x10;
    remember();
    check("a sheet of 511 bytes", launch(511, 10, 8) == MONITOR_WRONG_SIZE && unchanged());
    check("V above N", launch(512, 10, 17) == MONITOR_OUT_OF_RANGE && unchanged());
    check("a huge calling page", launch(512, SIZE_MAX, 8) == MONITOR_OUT_OF_RANGE && unchanged());
    check("the calling page in the monitor", launch(512, 12, 8) == MONITOR_AREAS_MEET && unchanged());

    check("launch", launch(512, 10, 8) == MONITOR_MADE);
    check("the table whole", memcmp(table, whole, N) == 0);
    check("record 0", memcmp(sheet, record_0, 32) == 0);
    memset(sheet_before, 0, 512);
    check("the other records are zeros", memcmp(sheet + 32, sheet_before + 32, 480 + GUARD) == 0);
    memory_before[10 * PAGE] = memory_before[10 * PAGE + 1] = 0;
    check("two bytes of the calling page are 0", memcmp(memory, memory_before, sizeof memory) == 0);
    check("nothing after the table", memcmp(table + N, table_before + N, GUARD) == 0);
}

static void stores(void)
{
    remember();
    check("a store", store(1, 7, 4094, "ab") == MONITOR_DONE);
    memory_before[7 * PAGE + 4094] = 'a';
    memory_before[7 * PAGE + 4095] = 'b';
    check("its two bytes alone", unchanged());
    check("a store of nothing at the end", store(3, 7, 4096, "") == MONITOR_DONE && unchanged());
    check("past the end of the page", store(1, 7, 4095, "ab") == MONITOR_REFUSED && unchanged());
    check("a huge offset", store(1, 7, SIZE_MAX, "ab") == MONITOR_REFUSED && unchanged());
    check("VMPL 0", store(0, 7, 0, "a") == MONITOR_REFUSED && unchanged());
    check("VMPL 4", store(4, 7, 0, "a") == MONITOR_REFUSED && unchanged());
    check("a page that is not valid", store(1, 8, 0, "a") == MONITOR_REFUSED && unchanged());
    check("the monitor's page", store(1, 12, 0, "a") == MONITOR_REFUSED && unchanged());
    check("page 16", store(1, 16, 0, "a") == MONITOR_REFUSED && unchanged());
}

static void marks(void)
{
    remember();
    check("run", monitor_mark(sheet, 512, 0, 1) == MONITOR_DONE);
    sheet_before[2] = 1;
    check("byte +2 alone is 1", unchanged());
    check("a mark of 2", monitor_mark(sheet, 512, 0, 2) == MONITOR_REFUSED && unchanged());
    check("a record that is not live", monitor_mark(sheet, 512, 1, 1) == MONITOR_REFUSED && unchanged());
    check("record 16", monitor_mark(sheet, 512, 16, 1) == MONITOR_REFUSED && unchanged());
    check("a sheet of 513 bytes", monitor_mark(sheet, 513, 0, 0) == MONITOR_REFUSED && unchanged());
    check("stop", monitor_mark(sheet, 512, 0, 0) == MONITOR_DONE);
    sheet_before[2] = 0;
    check("byte +2 alone is 0", unchanged());
}

/* Pvalidate, Deposit and Withdraw of page 8. */
static void list_calls(void)
{
    static const uint8_t list[16] = {1, 0, 0, 0, 0, 0, 0, 0, 4, 0x80, 0, 0, 0, 0, 0, 0};

    memcpy(memory + 0x1000, list, sizeof list);
    memset(memory + 0x8000, 0xEE, PAGE);
    ask(1, 0x1000, 0, 0);
    memory_before[0x1002] = 1;
    memset(memory_before + 0x8000, 0, PAGE);
    table_before[8] = 0x18;
    check("Pvalidate", handled(0));

    memory[0x1002] = 0;
    ask(1, 0x1000, 0, 0);
    check("Pvalidate, validity did not change", handled(0x80001010));
    ask(1, 0xA000, 0, 0);
    check("a list at the start of the calling page", handled(ADDRESS));

    memory[0x1008] = 0;
    ask(4, 0x1000, 0, 0);
    memory_before[0x1002] = 1;
    memory_before[0xA001] = 1;
    table_before[8] = 0x0B;
    check("Deposit", handled(0));
    ask(4, 0x1000, 0, 0);
    check("Deposit, next not below count", handled(PARAMETER));

    memset(memory + 0x2000, 0xEE, 24);
    ask(5, 0x2000, 0, 0);
    memory_before[0x2000] = 1;
    memory_before[0x2001] = 0;
    put(memory_before + 0x2008, 0x8000);
    memory_before[0xA001] = 0;
    table_before[8] = 0x18;
    check("Withdraw", handled(0));
    ask(5, 0x2FF8, 0, 0);
    check("Withdraw with no room", handled(PARAMETER));
}

/* A VMSA page that Create takes: VMPL 1, EFER bit 12, and the features that launch found. */
static void write_vmsa(size_t page)
{
    memory[page * PAGE + 0xCA] = 1;
    memory[page * PAGE + 0xD1] = 0x10;
    memory[page * PAGE + 0x3B0] = 9;
}

static void vcpu_calls(void)
{
    static const uint8_t record_1[32] = {1, 1, 0, 0, 5, 0, 0, 0, 6, 0, 0, 0, 7};

    write_vmsa(6);
    ask(2, 0x6000, 0x7000, 5);
    table_before[6] = 0x0D;
    table_before[7] = 0x79;
    memcpy(sheet_before + 32, record_1, 32);
    check("Create", handled(0));
    ask(2, 0x4000, 0x4000, 6);
    check("Create with one page for both", handled(ADDRESS));

    sheet[32 + 2] = 1;
    ask(3, 0x6000, 0, 0);
    check("Delete of a vCPU that runs", handled(0x80001003));
    sheet[32 + 2] = 0;
    ask(3, 0x6000, 0, 0);
    memory_before[0x60D1] = 0;
    table_before[6] = 0x18;
    table_before[7] = 0x78;
    memset(sheet_before + 32, 0, 32);
    check("Delete", handled(0));
}

static void remaps(void)
{
    ask(0, 0xA000, 0, 0);
    check("Remap to the same page", handled(0));
    memory[0x3000] = memory[0x3001] = 0xEE;
    ask(0, 0x3000, 0, 0);
    memory_before[0x3000] = memory_before[0x3001] = 0;
    table_before[3] = 0x79;
    table_before[10] = 0x78;
    sheet_before[12] = 3;
    check("Remap", handled(0));
    /* Back to page 10, with the pending byte in page 3. */
    ask(0, 0xA000, 0, 0);
    memory[0x3000] = 1;
    table_before[3] = 0x78;
    table_before[10] = 0x79;
    sheet_before[12] = 10;
    check("Remap back", handled(0));
}

static void query_calls(void)
{
    ask(6, 1, 0, 0);
    put(registers_before + 8, 0x0000000100000001);
    check("Query of 1", handled(0));
    ask(6, 2, 0, 0);
    put(registers_before + 8, 0);
    check("Query of 2", handled(0));
    ask(7, 1, 0, 0);
    put(registers_before + 8, 0);
    check("vTOM, the query", handled(0));
    ask(7, 0x1000, 0, 0);
    check("vTOM, bit 1 clear with bit 12 set", handled(PARAMETER));
    ask(7, 0x1002, 0, 0);
    check("vTOM, configure", handled(REQUEST));
    ask(8, 1, 0, 0);
    check("call 8", handled(0x80000002));
    ask((uint64_t)1 << 32, 1, 0, 0);
    check("protocol 1", handled(0x80000001));
}

static void outcomes(void)
{
    ask(6, 1, 0, 0);
    memory[10 * PAGE] = memory_before[10 * PAGE] = 0;
    check("no call: pending byte 0", call(0) == NO_CALL && unchanged());
    ask(6, 1, 0, 0);
    registers[40] = registers_before[40] = 2;
    check("no call: exit reason 0x402", call(0) == NO_CALL && unchanged());

    ask(6, 1, 0, 0);
    check("bad machine: record 1 is not live", call(1) == BAD_MACHINE && unchanged());
    check("bad machine: record 16", call(16) == BAD_MACHINE && unchanged());
    check("bad machine: 47 bytes of registers",
        monitor_call(memory, N * PAGE, table, N, sheet, 512, registers, 47, 0) == BAD_MACHINE && unchanged());
    check("bad machine: a page of memory too many",
        monitor_call(memory, N * PAGE, table, N - 1, sheet, 512, registers, 48, 0) == BAD_MACHINE && unchanged());
    sheet[2] = sheet_before[2] = 2;
    check("bad machine: a running byte of 2", call(0) == BAD_MACHINE && unchanged());
    sheet[2] = 0;

    write_vmsa(6);
    ask(2, 0x6000, 0x7000, 5);
    check("Create again", call(0) == HANDLED);
    memory[7 * PAGE] = 1;
    memory[0xA001] = 0xEE;
    ask(3, 0x6000, 0, 0);
    memory_before[0x60D1] = 0;
    memory_before[0xA001] = 0;
    table_before[6] = 0x18;
    table_before[7] = 0x78;
    memset(sheet_before + 32, 0, 32);
    check("gone: the registers and its pending byte stay", call(1) == GONE && unchanged());
}

/* A list of three entries at 0x1000, the first of them next. */
static void write_list(uint64_t first, uint64_t second, uint64_t third)
{
    put(memory + 0x1000, 3);
    put(memory + 0x1008, first);
    put(memory + 0x1010, second);
    put(memory + 0x1018, third);
}

/* Lists of another vCPU, refused at the third entry. The pending byte is in its calling page, the flag in the startup's. */
static void refused_midway(void)
{
    write_vmsa(6);
    ask(2, 0x6000, 0x7000, 5);
    check("Create of the caller", call(0) == HANDLED);

    write_list(0x2000, 0x3000, 0xB000);
    memory[0x7000] = memory[0x7001] = 1;
    memory[0xA001] = 0;
    ask(4, 0x1000, 0, 0);
    memory_before[0x1002] = 2;
    memory_before[0xA001] = 1;
    table_before[2] = table_before[3] = 0x0B;
    check("Deposit refused at the third entry: two pages stand in the pool", handled_by(1, 7, ADDRESS));

    write_list(0x9004, 0x8000, 0x9004);
    memset(memory + 0x9000, 0xEE, PAGE);
    memory[0x7000] = 1;
    ask(1, 0x1000, 0, 0);
    memory_before[0x1002] = 2;
    memset(memory_before + 0x9000, 0, PAGE);
    table_before[9] = 0x18;
    table_before[8] = 0x00;
    check("Pvalidate refused at the third entry: two pages stand changed", handled_by(1, 7, 0x80001010));
}

/* Base, size and area, with what monitor_announce answers and what monitor_discover does where they stand in a page. */
static const struct {
    const char *name;
    uint64_t base, size, area;
    uint32_t told, read;
} places[] = {
    {"no fault", 0xC000, 0x4000, 0xA000, MONITOR_TOLD, MONITOR_TOLD},
    {"base", 0xC001, 0x4000, 0xA000, MONITOR_UNALIGNED_BASE, MONITOR_UNALIGNED_BASE},
    {"base and size", 0xC800, 0x4800, 0xA000, MONITOR_UNALIGNED_BASE, MONITOR_UNALIGNED_BASE},
    {"size", 0xC000, 0x4001, 0xA000, MONITOR_UNALIGNED_SIZE, MONITOR_UNALIGNED_SIZE},
    {"size and area", 0xC000, 0x4FFF, 0xAFFF, MONITOR_UNALIGNED_SIZE, MONITOR_UNALIGNED_SIZE},
    {"area", 0xC000, 0x4000, 0xA001, MONITOR_UNALIGNED_AREA, MONITOR_UNALIGNED_AREA},
    {"area and end", 0xFFFFFFFFFFFFC000, 0x5000, 0xA008, MONITOR_UNALIGNED_AREA, MONITOR_UNALIGNED_AREA},
    {"end", 0xFFFFFFFFFFFFC000, 0x5000, 0xA000, MONITOR_PAST_END, MONITOR_PAST_END},
    {"end and inside", 0xFFFFFFFFFFFFC000, 0x5000, 0xFFFFFFFFFFFFC000, MONITOR_PAST_END, MONITOR_PAST_END},
    {"to 2^64", 0xFFFFFFFFFFFFC000, 0x4000, 0xFFFFFFFFFFFFB000, MONITOR_TOLD, MONITOR_TOLD},
    {"inside, to 2^64", 0xFFFFFFFFFFFFC000, 0x4000, 0xFFFFFFFFFFFFF000, MONITOR_AREA_INSIDE, MONITOR_AREA_INSIDE},
    {"inside, at the base", 0xC000, 0x4000, 0xC000, MONITOR_AREA_INSIDE, MONITOR_AREA_INSIDE},
    {"just behind", 0xC000, 0x4000, 0x10000, MONITOR_TOLD, MONITOR_TOLD},
    {"size 0", 0xC000, 0, 0xC000, MONITOR_NO_MONITOR, MONITOR_NO_MONITOR},
    {"size 0 and base", 0xC001, 0, 0xA000, MONITOR_UNALIGNED_BASE, MONITOR_NO_MONITOR},
    {"size 0 and area", 0xC000, 0, 0xA001, MONITOR_UNALIGNED_AREA, MONITOR_NO_MONITOR},
};

enum { PLACES = sizeof places / sizeof places[0] };

/* Writes the fields as they stand in a page: the numbers, and after them version, VMPL and the reserved three. */
static void put_fields(uint8_t *at, int place, uint32_t version, uint8_t vmpl, uint8_t reserved)
{
    put(at, places[place].base);
    put(at + 8, places[place].size);
    put(at + 16, places[place].area);
    put(at + 24, (uint64_t)vmpl << 32 | version);
    memset(at + 29, reserved, 3);
}

static void remember_secrets(void)
{
    memcpy(secrets_before, guarded_secrets, sizeof guarded_secrets);
    memcpy(fields_before, guarded_fields, sizeof guarded_fields);
}

static int secrets_unchanged(void)
{
    return memcmp(guarded_secrets, secrets_before, sizeof guarded_secrets) == 0 && memcmp(guarded_fields, fields_before, sizeof guarded_fields) == 0;
}

/* Fills page and fields with bytes that nothing writes there. */
static void blank_secrets(void)
{
    memset(guarded_secrets, 0xEE, sizeof guarded_secrets);
    memset(guarded_fields, 0xEE, sizeof guarded_fields);
    remember_secrets();
}

static void check_place(const char *function, int place, int holds)
{
    char name[64];

    snprintf(name, sizeof name, "%s: %s", function, places[place].name);
    check(name, holds);
}

static uint32_t announce(size_t length, int place, uint8_t vmpl)
{
    return monitor_announce(secrets, length, places[place].base, places[place].size, places[place].area, vmpl);
}

/* What is written are the 32 bytes at 0x140, where the answer is 0, and nothing else. */
static void announcements(void)
{
    for (int place = 0; place < PLACES; place++) {
        blank_secrets();
        if (places[place].told == MONITOR_TOLD) {
            put_fields(secrets_before + GUARD + 0x140, place, 1, 0xF3, 0);
        }
        check_place("announce", place, announce(PAGE, place, 0xF3) == places[place].told && secrets_unchanged());
    }
    blank_secrets();
    check("announce: a page of 4,095 bytes", announce(PAGE - 1, 0, 1) == MONITOR_WRONG_LENGTH && secrets_unchanged());
    check("announce: a page of 4,097 bytes", announce(PAGE + 1, 0, 1) == MONITOR_WRONG_LENGTH && secrets_unchanged());
    check("announce: no page, and base and size", announce(0, 2, 1) == MONITOR_WRONG_LENGTH && secrets_unchanged());
}

/* The page stays. The fields become its own where the answer is 0, with zeros for the reserved three. */
static void discoveries(void)
{
    for (int place = 0; place < PLACES; place++) {
        blank_secrets();
        put_fields(secrets + 0x140, place, 0xA1B2C3D4, 0x7F, 5);
        remember_secrets();
        if (places[place].read == MONITOR_TOLD) {
            put_fields(fields_before + GUARD, place, 0xA1B2C3D4, 0x7F, 0);
        }
        check_place("discover", place, monitor_discover(secrets, PAGE, fields, 32) == places[place].read && secrets_unchanged());
    }
    blank_secrets();
    put_fields(secrets + 0x140, 0, 1, 1, 0);
    remember_secrets();
    check("discover: a page of 4,095 bytes", monitor_discover(secrets, PAGE - 1, fields, 32) == MONITOR_WRONG_LENGTH && secrets_unchanged());
    check("discover: a page of 4,097 bytes", monitor_discover(secrets, PAGE + 1, fields, 32) == MONITOR_WRONG_LENGTH && secrets_unchanged());
    check("discover: 31 bytes of fields", monitor_discover(secrets, PAGE, fields, 31) == MONITOR_WRONG_LENGTH && secrets_unchanged());
    check("discover: 33 bytes of fields", monitor_discover(secrets, PAGE, fields, 33) == MONITOR_WRONG_LENGTH && secrets_unchanged());
    memset(secrets + 0x148, 0, 8);
    remember_secrets();
    check("discover: a page of 4,095 bytes, and size 0", monitor_discover(secrets, PAGE - 1, fields, 32) == MONITOR_WRONG_LENGTH && secrets_unchanged());
    check("discover: no fields, and size 0", monitor_discover(secrets, PAGE, fields, 0) == MONITOR_WRONG_LENGTH && secrets_unchanged());
}

/* The values of the launch, into page 5 of the machine itself: monitor 12 to 15, calling page 10, and the VMPL of record 0. */
static void launch_told(void)
{
    static const uint8_t told[32] = {0, 0xC0, 0, 0, 0, 0, 0, 0, 0, 0x40, 0, 0, 0, 0, 0, 0, 0, 0xA0, 0, 0, 0, 0, 0, 0, 1, 0, 0, 0, 1};

    memset(memory + 0x5000, 0xEE, PAGE);
    remember();
    memcpy(memory_before + 0x5140, told, 32);
    check("the launch is told", monitor_announce(memory + 0x5000, PAGE, 12 * PAGE, 4 * PAGE, 10 * PAGE, sheet[1]) == MONITOR_TOLD);
    check("in the 32 bytes alone", unchanged());
    blank_secrets();
    memcpy(fields_before + GUARD, told, 32);
    check("and read back", monitor_discover(memory + 0x5000, PAGE, fields, 32) == MONITOR_TOLD && secrets_unchanged() && unchanged());
}

int main(void)
{
    launches();
    launch_told();
    stores();
    marks();
    list_calls();
    vcpu_calls();
    remaps();
    query_calls();
    outcomes();
    refused_midway();
    announcements();
    discoveries();
    printf("%d passed, %d failed\n", passed, failed);
    return failed == 0 ? 0 : 1;
}

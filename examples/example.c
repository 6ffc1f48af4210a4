/* Make a device of the default sheet, take readings, and answer frames: what a board does all day; then load bad sheets
 * while it runs, which disturbs nothing; then calibrate it from the panel; then fill it slowly with the filter on; then
 * weigh a lorry on a platform of four; then push and pull a cell; then overload it and send RST; then read a hot hopper
 * by a probe; then stop a feed by weight. In one report the four values differ, and in one weighing all eight, so that a
 * header with their order changed does not pass. */
#include "converter.h"
#include <inttypes.h>
#include <stdio.h>
#include <string.h>

static size_t put_figure(uint8_t *out, size_t at, int64_t figure)
{
    for (size_t i = 0; i < 8; i++)
        out[at + i] = (uint8_t)((uint64_t)figure >> (8 * i));
    return at + 8;
}

/* "The default sheet is 001's: offsets and adjustments 0, gains 1, CT 0 and 25 degrees, CLX 0 and 100, both ranges
 * +-150, SZ 0, filter 0 and 0": five sections, each a count and figures of 8 bytes, low byte first. */
static size_t default_sheet(uint8_t *out)
{
    static const int64_t cell[] = {0, 268435456, -9830400, 9830400};
    static const int64_t temperature[] = {0, 0, 0, 1638400, 0, 0};
    static const int64_t linearity[] = {0, 0, 6553600, 0};
    static const int64_t system[] = {0, 268435456, -9830400, 9830400, 0};
    static const int64_t filter[] = {0, 0};
    static const struct { uint8_t count; size_t figures; const int64_t *figure; } sections[] = {
        {4, 4, cell}, {2, 6, temperature}, {2, 4, linearity}, {5, 5, system}, {2, 2, filter}};
    size_t at = 0;
    for (size_t s = 0; s < sizeof sections / sizeof *sections; s++) {
        out[at++] = sections[s].count;
        for (size_t i = 0; i < sections[s].figures; i++)
            at = put_figure(out, at, sections[s].figure[i]);
    }
    return at;
}

/* Puts the checksum behind a frame of `length` bytes, low byte first. */
static size_t sealed(uint8_t *frame, size_t length)
{
    unsigned checksum = 0xffff;
    for (size_t i = 0; i < length; i++) {
        checksum ^= frame[i];
        for (int bit = 0; bit < 8; bit++)
            checksum = checksum & 1 ? checksum >> 1 ^ 0xa001 : checksum >> 1;
    }
    frame[length] = (uint8_t)checksum;
    frame[length + 1] = (uint8_t)(checksum >> 8);
    return length + 2;
}

/* A read: station 52, function 3, wire address, quantity 2. */
static converter_answered read_register(converter_device *device, unsigned address, uint8_t *reply, size_t room)
{
    uint8_t frame[8] = {52, 3, (uint8_t)(address >> 8), (uint8_t)address, 0, 2};
    return converter_frame(device, frame, sealed(frame, 6), reply, room);
}

/* A write: function 16, wire address, quantity 2, byte count 4, and the float in the bytes 15:8, 7:0, 31:24, 23:16. */
static converter_answered write_register(converter_device *device, unsigned address, float value, uint8_t *reply,
                                         size_t room)
{
    uint8_t frame[13] = {52, 16, (uint8_t)(address >> 8), (uint8_t)address, 0, 2, 4};
    uint32_t bits;
    memcpy(&bits, &value, sizeof bits);
    frame[7] = (uint8_t)(bits >> 8);
    frame[8] = (uint8_t)bits;
    frame[9] = (uint8_t)(bits >> 24);
    frame[10] = (uint8_t)(bits >> 16);
    return converter_frame(device, frame, sealed(frame, 11), reply, room);
}

static void print_reply(const char *what, converter_answered answered, const uint8_t *reply)
{
    printf("%s: %u,", what, answered.number);
    for (size_t i = 0; i < answered.length; i++)
        printf(" %02x", reply[i]);
    printf("\n");
}

static void print_report(converter_reported reported)
{
    printf("report: %u, SYS %.1f PEAK %.1f TROF %.1f CELL %.1f\n", reported.number, reported.report.sys,
           reported.report.peak, reported.report.trof, reported.report.cell);
}

/* All that a device answers: a read of each number up to 127, among which are all registers, number and bytes, and its
 * report. */
enum { NUMBERS = 128 };
typedef struct { uint8_t number[NUMBERS], reply[NUMBERS][9]; converter_reported report; } answers;

static void ask_all(converter_device *device, answers *all)
{
    memset(all, 0, sizeof *all);
    for (unsigned i = 0; i < NUMBERS; i++)
        all->number[i] = read_register(device, 2 * i, all->reply[i], sizeof all->reply[i]).number;
    all->report = converter_report(device);
}

static bool same(const answers *a, const answers *b)
{
    const converter_report_values *r = &a->report.report, *s = &b->report.report;
    return memcmp(a->number, b->number, sizeof a->number) == 0 && memcmp(a->reply, b->reply, sizeof a->reply) == 0 &&
           a->report.number == b->report.number && r->sys == s->sys && r->peak == s->peak && r->trof == s->trof &&
           r->cell == s->cell;
}

/* A new sheet for a device that may be in use: the record is assigned only where the sheet is accepted. */
static uint8_t load(converter_device *device, const uint8_t *sheet, size_t length, uint8_t station)
{
    converter_outcome made = converter_make(sheet, length, station);
    if (made.number == 0)
        *device = made.device;
    return made.number;
}

static void load_bad(const char *what, converter_device *device, const uint8_t *sheet, size_t length, uint8_t station)
{
    answers before, after;
    ask_all(device, &before);
    uint8_t number = load(device, sheet, length, station);
    ask_all(device, &after);
    printf("%s: %u, the device answers %s\n", what, number, same(&before, &after) ? "as before" : "otherwise");
}

/* Change 1 of paper 02. The device has CGAI 2, and the cell gives 50 %, so that SYS is 100. */
static void calibrate_from_panel(converter_device *device)
{
    uint8_t reply[16];
    answers before, after;

    /* CGAI 1.5 goes to the waiting copy, and a read shows it there; a reading still goes by the figures in force. */
    print_reply("write CGAI", write_register(device, CONVERTER_REGISTER_CGAI, 1.5f, reply, sizeof reply), reply);
    print_reply("read CGAI", read_register(device, CONVERTER_REGISTER_CGAI, reply, sizeof reply), reply);
    printf("reading: %u\n", converter_reading(device, 3276800, 1310720, 0));
    print_report(converter_report(device));

    /* Register 99 puts the copy in force, from the next reading; PEAK is of the readings before. */
    print_reply("write APPLY", write_register(device, CONVERTER_REGISTER_APPLY, 0.0f, reply, sizeof reply), reply);
    printf("reading: %u\n", converter_reading(device, 3276800, 1310720, 0));
    print_report(converter_report(device));

    /* CMIN 200 is above CMAX, 150. The copy takes it; in force it does not come, and nothing changes. */
    print_reply("write CMIN", write_register(device, CONVERTER_REGISTER_CMIN, 200.0f, reply, sizeof reply), reply);
    ask_all(device, &before);
    print_reply("write APPLY", write_register(device, CONVERTER_REGISTER_APPLY, 0.0f, reply, sizeof reply), reply);
    ask_all(device, &after);
    printf("the device answers %s\n", same(&before, &after) ? "as before" : "otherwise");
    print_reply("read CMIN", read_register(device, CONVERTER_REGISTER_CMIN, reply, sizeof reply), reply);

    /* RST brings the copy back to the figures in force: CMIN -150, CGAI 1.5. */
    print_reply("write RST", write_register(device, CONVERTER_REGISTER_RST, 0.0f, reply, sizeof reply), reply);
    print_reply("read CMIN", read_register(device, CONVERTER_REGISTER_CMIN, reply, sizeof reply), reply);
    print_reply("read CGAI", read_register(device, CONVERTER_REGISTER_CGAI, reply, sizeof reply), reply);
}

/* Change 2 of paper 02. By the default sheet SYS is the filter's held value. FFLV 3 % and FFST 2: an input that is at
 * most 3 % from the one before is smoothed, however far the held value has fallen behind. The last one is a jump. */
static void fill_slowly(converter_device *device)
{
    static const int percent[] = {0, 2, 4, 6, 8, 11, 15};
    uint8_t reply[16];
    write_register(device, CONVERTER_REGISTER_FFLV, 3.0f, reply, sizeof reply);
    write_register(device, CONVERTER_REGISTER_FFST, 2.0f, reply, sizeof reply);
    print_reply("write APPLY", write_register(device, CONVERTER_REGISTER_APPLY, 0.0f, reply, sizeof reply), reply);
    for (size_t i = 0; i < sizeof percent / sizeof *percent; i++) {
        converter_reading(device, percent[i] * 65536, 1310720, 0);
        printf("reading %d %%: SYS %.4f\n", percent[i], converter_report(device).report.sys);
    }
}

static void print_weighed(converter_weighed weighed)
{
    const converter_weights *w = &weighed.weights;
    const struct { const char *name; int64_t steps; } shown[] = {
        {"SYS at corner 1", w->one}, {"SYS at corner 2", w->two}, {"SYS at corner 3", w->three},
        {"SYS at corner 4", w->four}, {"total", w->total}, {"left", w->left}, {"right", w->right},
        {"left less right", w->difference}};
    printf("weigh: %u\n", weighed.number);
    for (size_t i = 0; i < sizeof shown / sizeof *shown; i++)
        printf("  %s: %" PRId64 " steps, %.4f units\n", shown[i].name, shown[i].steps, (double)shown[i].steps / 65536);
}

/* Change 4 of paper 02. A platform has a cell at each corner, 1 and 3 on the left, 2 and 4 on the right: four devices,
 * in four records; here of the default sheet, and of one station. A lorry puts 30, 25.5, 61.5 and 58 % on them. */
static void weigh_lorry(const uint8_t *sheet, size_t length)
{
    static converter_device corner[4];
    static answers before[4], after[4];
    converter_samples samples = {{1966080, 1310720, 0}, {1671168, 1310720, 0}, {4030464, 1310720, 0},
                                 {3801088, 1310720, 0}};
    for (size_t i = 0; i < 4; i++)
        printf("make corner %zu: %u\n", i + 1, load(&corner[i], sheet, length, 52));
    print_weighed(converter_weigh(&corner[0], &corner[1], &corner[2], &corner[3], &samples));

    /* The lorry has gone, and corner 3 gives a reading just beyond its range: no corner takes its own. */
    samples.one.elec = samples.two.elec = samples.four.elec = 0;
    samples.three.elec = 19660801;
    for (size_t i = 0; i < 4; i++)
        ask_all(&corner[i], &before[i]);
    print_weighed(converter_weigh(&corner[0], &corner[1], &corner[2], &corner[3], &samples));
    for (size_t i = 0; i < 4; i++) {
        ask_all(&corner[i], &after[i]);
        printf("corner %zu answers %s: ", i + 1, same(&before[i], &after[i]) ? "as before" : "otherwise");
        print_report(converter_report(&corner[i]));
    }
}

/* Change 5 of paper 02. A test rig pushes and pulls a cell with the same load, here 40 % and a step. CGAI 1/2 makes
 * half a step of it, which goes away from zero on both sides: the two values differ in their sign alone. */
static void push_and_pull(converter_device *device)
{
    static const int64_t load[] = {2621441, -2621441};
    for (size_t i = 0; i < sizeof load / sizeof *load; i++) {
        converter_reading(device, load[i], 1310720, 0);
        printf("%s by %" PRId64 " steps: SYS %.1f steps\n", load[i] > 0 ? "push" : "pull", load[i],
               65536 * converter_report(device).report.sys);
    }
}

/* What a read gives, where it is accepted. */
static float read_value(converter_device *device, unsigned address)
{
    uint8_t reply[9];
    read_register(device, address, reply, sizeof reply);
    uint32_t bits = (uint32_t)reply[5] << 24 | (uint32_t)reply[6] << 16 | (uint32_t)reply[3] << 8 | reply[4];
    float value;
    memcpy(&value, &bits, sizeof value);
    return value;
}

static void print_flag(const char *what, converter_device *device)
{
    unsigned flag = (unsigned)read_value(device, CONVERTER_REGISTER_FLAG);
    printf("%s: FLAG %u%s%s%s%s\n", what, flag, flag & CONVERTER_FLAG_TEMPOR ? " TEMPOR" : "",
           flag & CONVERTER_FLAG_ECOMOR ? " ECOMOR" : "", flag & CONVERTER_FLAG_CRAWOR ? " CRAWOR" : "",
           flag & CONVERTER_FLAG_REBOOT ? " REBOOT" : "");
}

/* Change 7 of paper 02. The default sheet; REBOOT of the start was seen and is cleared. The cell is overloaded, 155 %,
 * and a site engineer sends RST before looking: PEAK begins anew at 50 %, and FLAG still tells of the overload. A write
 * that lacks its bits clears them. */
static void reset_after_overload(converter_device *device)
{
    uint8_t reply[16];
    write_register(device, CONVERTER_REGISTER_FLAG, 0.0f, reply, sizeof reply);
    converter_reading(device, 155 * 65536, 1310720, 0);
    print_flag("overloaded", device);
    print_reply("write RST", write_register(device, CONVERTER_REGISTER_RST, 0.0f, reply, sizeof reply), reply);
    converter_reading(device, 50 * 65536, 1310720, 0);
    print_report(converter_report(device));
    print_flag("after RST", device);
    print_reply("write FLAG", write_register(device, CONVERTER_REGISTER_FLAG, 32768.0f, reply, sizeof reply), reply);
    print_flag("after the write", device);
}

/* Change 8 of paper 02. The default sheet, but for CT2 100 degrees and CTO2 10 %: 50 % show as 40 at 100 degrees. A
 * Pt100 beside the cell has 100 ohm at 0 degrees, 109.7347 at 25 and 138.5055 at 100; the last resistance is beyond 150
 * degrees, and nothing is taken. Above 90 degrees TEMPOR is raised. */
static void read_hot_hopper(converter_device *device)
{
    static const int64_t resistance[] = {1000000, 1097347, 1385055, CONVERTER_MOST_RESISTANCE + 1};
    uint8_t reply[16];
    write_register(device, CONVERTER_REGISTER_CT + 2, 100.0f, reply, sizeof reply);
    write_register(device, CONVERTER_REGISTER_CTO + 2, 10.0f, reply, sizeof reply);
    print_reply("write APPLY", write_register(device, CONVERTER_REGISTER_APPLY, 0.0f, reply, sizeof reply), reply);
    for (size_t i = 0; i < sizeof resistance / sizeof *resistance; i++) {
        uint8_t number = converter_probe(device, 3276800, resistance[i], 0);
        printf("probe %.4f ohm: %u, TEMP %.1f SYS %.1f\n", (double)resistance[i] / 10000, number,
               read_value(device, CONVERTER_REGISTER_TEMP), read_value(device, CONVERTER_REGISTER_SYS));
    }
    print_flag("hot", device);
}

/* SYS as a batching program reads it, after a reading at 20 degrees. */
static float sys_at(converter_device *device, int64_t elec)
{
    converter_reading(device, elec, 1310720, 0);
    return read_value(device, CONVERTER_REGISTER_SYS);
}

/* Change 14 of paper 02. The default sheet, but for the steepest correction that a sheet may have: CLK2 -25 at CLX2 100.
 * A feed runs until SYS passes 60. With the filter off, each reading of a step more reads no lighter. With the filter
 * on, FFLV 20 % and FFST 4, a heavier bridge signal may: 52 % after 40 % reads lighter than 50 % by itself. */
static void stop_feed(converter_device *device)
{
    uint8_t reply[16];
    unsigned readings = 0, lighter = 0;
    int64_t elec = 0;
    write_register(device, CONVERTER_REGISTER_CLK + 2, -25.0f, reply, sizeof reply);
    print_reply("write APPLY", write_register(device, CONVERTER_REGISTER_APPLY, 0.0f, reply, sizeof reply), reply);
    while (sys_at(device, elec) < 60.0f) {
        elec += 1 * 65536;
        readings++;
    }
    printf("stopped after %u readings: ELEC %.1f %%, SYS %.1f\n", readings, (double)elec / 65536,
           read_value(device, CONVERTER_REGISTER_SYS));
    for (int64_t from = elec - 1000; from < elec + 1000; from++) {
        float sys = sys_at(device, from);
        lighter += sys_at(device, from + 1) < sys;
    }
    printf("2000 pairs of readings a step apart: %u read lighter\n", lighter);

    write_register(device, CONVERTER_REGISTER_FFLV, 20.0f, reply, sizeof reply);
    write_register(device, CONVERTER_REGISTER_FFST, 4.0f, reply, sizeof reply);
    write_register(device, CONVERTER_REGISTER_CLK + 2, 0.0f, reply, sizeof reply);
    print_reply("write APPLY", write_register(device, CONVERTER_REGISTER_APPLY, 0.0f, reply, sizeof reply), reply);
    write_register(device, CONVERTER_REGISTER_RST, 0.0f, reply, sizeof reply);
    printf("filter on: 50 %% reads %.1f;", sys_at(device, 50 * 65536));
    write_register(device, CONVERTER_REGISTER_RST, 0.0f, reply, sizeof reply);
    sys_at(device, 40 * 65536);
    printf(" 52 %% after 40 %% reads %.1f\n", sys_at(device, 52 * 65536));
}

int main(void)
{
    static converter_device device;
    uint8_t sheet[325], reply[16];
    size_t length = default_sheet(sheet);
    printf("make: %u (%zu bytes)\n", load(&device, sheet, length, 52), length);

    /* 100 % at 20 degrees. */
    printf("reading: %u\n", converter_reading(&device, 6553600, 1310720, 0));
    print_report(converter_report(&device));
    print_reply("read SYS", read_register(&device, CONVERTER_REGISTER_SYS, reply, sizeof reply), reply);

    /* Register 7 is not listed: exception 2. */
    print_reply("read register 7", read_register(&device, 2 * 7, reply, sizeof reply), reply);

    /* A damaged frame is not answered: here the last byte is missing. */
    static const uint8_t damaged[] = {0x34, 0x03, 0x00, 0x14, 0x00, 0x02, 0x81};
    print_reply("damaged", converter_frame(&device, damaged, sizeof damaged, reply, sizeof reply), reply);

    /* SZ 25, to all stations: obeyed and not answered. It counts from the next reading: 50 %, then 75 %. */
    uint8_t write_sz[13] = {0, 16, 0, CONVERTER_REGISTER_SZ, 0, 2, 4, 0x00, 0x00, 0x41, 0xc8};
    print_reply("broadcast SZ", converter_frame(&device, write_sz, sealed(write_sz, 11), reply, sizeof reply), reply);
    printf("reading: %u\n", converter_reading(&device, 3276800, 1310720, 0));
    printf("reading: %u\n", converter_reading(&device, 4915200, 1310720, 0));
    print_report(converter_report(&device));

    /* Bad sheets, loaded on the running device. */
    load_bad("sheet cut short", &device, sheet, length - 1, 52);
    load_bad("station 0", &device, sheet, length, 0);
    put_figure(sheet, 9, (int64_t)1 << 40);
    load_bad("CGAI beyond its range", &device, sheet, length, 52);
    print_report(converter_report(&device));

    /* A good one, CGAI 2: the device starts anew. */
    put_figure(sheet, 9, 2 * 268435456);
    printf("good sheet: %u\n", load(&device, sheet, length, 52));
    print_report(converter_report(&device));
    printf("reading: %u\n", converter_reading(&device, 3276800, 1310720, 0));
    print_report(converter_report(&device));

    calibrate_from_panel(&device);

    /* The default sheet again: CGAI 1. */
    put_figure(sheet, 9, 268435456);
    printf("good sheet: %u\n", load(&device, sheet, length, 52));
    fill_slowly(&device);

    weigh_lorry(sheet, length);

    /* CGAI 1/2. */
    put_figure(sheet, 9, 268435456 / 2);
    printf("good sheet: %u\n", load(&device, sheet, length, 52));
    push_and_pull(&device);

    /* CGAI 1. */
    put_figure(sheet, 9, 268435456);
    printf("good sheet: %u\n", load(&device, sheet, length, 52));
    reset_after_overload(&device);

    printf("good sheet: %u\n", load(&device, sheet, length, 52));
    read_hot_hopper(&device);

    printf("good sheet: %u\n", load(&device, sheet, length, 52));
    stop_feed(&device);
    return 0;
}

/* What a laboratory does with sheets (paper 02, Change 6): writes figures as a sheet, judges and reads it, moves it to
 * the new form with a serial number and a day, and back; both forms make the same device. Then what is refused, and in
 * which order. Link libboard.a, for the devices, and liblaboratory.a, for all the rest. */
#include "converter.h"
#include <inttypes.h>
#include <stdio.h>
#include <string.h>

/* Longer than need be, so that it shows what a call leaves alone. */
enum { ROOM = 400 };
typedef struct { uint8_t out[ROOM], scratch[ROOM]; } buffers;

static void fill(buffers *lent)
{
    memset(lent->out, 0xa5, sizeof lent->out);
    memset(lent->scratch, 0x5c, sizeof lent->scratch);
}

static bool all(const uint8_t *bytes, size_t from, uint8_t value)
{
    for (size_t i = from; i < ROOM; i++)
        if (bytes[i] != value)
            return false;
    return true;
}

/* After a move the bytes written stand at the front of both buffers, and all others are untouched; beside a refusal the
 * length is 0, and so all are. */
static const char *after(const buffers *lent, size_t length)
{
    if (memcmp(lent->out, lent->scratch, length) != 0)
        return "the scratch is no copy";
    if (!all(lent->out, length, 0xa5) || !all(lent->scratch, length, 0x5c))
        return "other bytes changed";
    return length > 0 ? "a copy in the scratch" : "buffers untouched";
}

static bool equal(const uint8_t *bytes, size_t length, const uint8_t *sheet, size_t due)
{
    return length == due && memcmp(bytes, sheet, due) == 0;
}

/* The day is "days after 1 January 2000"; here also as the calendar has it. */
static void print_identity(converter_identity identity)
{
    static const int days[] = {31, 28, 31, 30, 31, 30, 31, 31, 30, 31, 30, 31};
    int64_t left = identity.day;
    for (int year = 2000;; year++) {
        bool leap = year % 4 == 0 && (year % 100 != 0 || year % 400 == 0);
        for (int month = 0; month < 12; month++) {
            int length = days[month] + (leap && month == 1);
            if (left < length) {
                printf("serial %" PRId64 ", day %" PRId64 " (%d-%02d-%02d)", identity.serial, identity.day, year,
                       month + 1, (int)left + 1);
                return;
            }
            left -= length;
        }
    }
}

static void print_contents(const char *what, converter_contents c)
{
    const converter_calibration *f = &c.figures;
    printf("read %s: %u, form %u, ", what, c.number, c.form);
    if (c.form == CONVERTER_NEW_FORM)
        print_identity(c.identity);
    else
        printf("no identity");
    printf("\n  COFS %" PRId64 ", %u temperature and %u linearity points, the last at %" PRId64 " and %" PRId64 "\n",
           f->cell.cofs, f->temperature.ctn, f->linearity.cln, f->temperature.points[1].ct, f->linearity.points[2].clx);
}

/* Both sheets make a device; each takes the same readings, and reports. */
static void print_devices(const uint8_t *old_sheet, size_t old_length, const uint8_t *new_sheet, size_t new_length)
{
    static const int64_t percent[] = {20, 120, 60};
    converter_outcome made[2] = {converter_make(old_sheet, old_length, 52), converter_make(new_sheet, new_length, 52)};
    printf("make: %u of the old form, %u of the new one\n", made[0].number, made[1].number);
    if (made[0].number != 0 || made[1].number != 0)
        return;
    for (size_t i = 0; i < sizeof percent / sizeof *percent; i++)
        for (size_t d = 0; d < 2; d++) {
            converter_reading(&made[d].device, percent[i] * 65536, 1310720, 0);
            converter_report_values r = converter_report(&made[d].device).report;
            printf("  %s, %" PRId64 " %%: SYS %.3f PEAK %.3f TROF %.3f CELL %.3f\n", d == 0 ? "old" : "new",
                   percent[i], r.sys, r.peak, r.trof, r.cell);
        }
}

static void to_new(const char *what, const uint8_t *sheet, size_t length, converter_identity identity, size_t room,
                   size_t scratch_room)
{
    buffers lent;
    fill(&lent);
    converter_written moved =
        converter_move_to_new(sheet, length, identity, lent.out, room, lent.scratch, scratch_room);
    printf("to new, %s: %u, %zu bytes, %s\n", what, moved.number, moved.length, after(&lent, moved.length));
}

static void to_old(const char *what, const uint8_t *sheet, size_t length, size_t room, size_t scratch_room)
{
    buffers lent;
    fill(&lent);
    converter_moved_back moved = converter_move_to_old(sheet, length, lent.out, room, lent.scratch, scratch_room);
    printf("to old, %s: %u, %zu bytes, serial %" PRId64 ", day %" PRId64 ", %s\n", what, moved.number, moved.length,
           moved.identity.serial, moved.identity.day, after(&lent, moved.length));
}

int main(void)
{
    /* 001's default figures, but for COFS 20 %, and 0.5 more at 60 % of a third linearity point. */
    converter_calibration figures = {
        {1310720, 268435456, -9830400, 9830400}, {2, {{0, 0, 0}, {1638400, 0, 0}}},
        {3, {{0, 0}, {3932160, 32768}, {6553600, 0}}}, {0, 268435456, -9830400, 9830400, 0}, {0, 0}};
    const converter_identity identity = {1234567, 9816}, wrong = {1234567, 65536}, least = {0, 0};
    const converter_identity most = {4294967295, 65535};
    uint8_t sheet[CONVERTER_LONGEST_OLD];
    static buffers lent, back;

    /* Figures become a sheet of the old form; a room of CONVERTER_LONGEST_OLD is enough for all. */
    converter_written written = converter_write_sheet(figures, sheet, sizeof sheet);
    size_t length = written.length;
    printf("write: %u, %zu bytes\n", written.number, length);
    printf("judge: %u\n", converter_judge_sheet(sheet, length));
    print_contents("the old form", converter_read_sheet(sheet, length));

    /* To the new form: a count of 2, serial and day, low byte first, and then the old sheet as it was. */
    fill(&lent);
    written = converter_move_to_new(sheet, length, identity, lent.out, ROOM, lent.scratch, CONVERTER_SCRATCH);
    printf("to new: %u, %zu bytes, %s\n ", written.number, written.length, after(&lent, written.length));
    for (size_t i = 0; i < 18; i++)
        printf(" %02x", lent.out[i]);
    printf(" ..\n  behind the identity %s\n",
           equal(lent.out + 17, written.length - 17, sheet, length) ? "the old sheet" : "another one");
    print_contents("the new form", converter_read_sheet(lent.out, written.length));
    print_devices(sheet, length, lent.out, written.length);

    /* And back: the old bytes again, and the identity beside them. */
    fill(&back);
    converter_moved_back moved =
        converter_move_to_old(lent.out, written.length, back.out, ROOM, back.scratch, CONVERTER_SCRATCH);
    printf("to old: %u, %zu bytes, %s, %s\n  ", moved.number, moved.length, after(&back, moved.length),
           equal(back.out, moved.length, sheet, length) ? "the old sheet" : "another one");
    print_identity(moved.identity);
    printf("\n");

    /* The writer keeps to the old form, also for figures that were read from a new sheet. */
    written = converter_write_sheet(converter_read_sheet(lent.out, length + 17).figures, back.out, ROOM);
    printf("write again: %u, %s\n", written.number,
           equal(back.out, written.length, sheet, length) ? "the old sheet" : "another one");

    /* The ends of the ranges, and the least rooms. */
    to_new("serial 0 and day 0", sheet, length, least, length + 17, 342);
    to_new("the largest of both", sheet, length, most, length + 17, 342);
    to_old("the least rooms", lent.out, length + 17, length, 342);

    /* Turned down: for the sheet, then for the identity, then for the buffers. */
    to_new("a sheet of the new form", lent.out, length + 17, identity, ROOM, ROOM);
    to_old("a sheet of the old form", sheet, length, ROOM, ROOM);
    to_new("a sheet cut short, all else wrong too", sheet, length - 1, wrong, 0, 0);
    to_new("day 65536, no room", sheet, length, wrong, 0, 0);
    to_new("a byte too little", sheet, length, identity, length + 16, 342);
    to_new("scratch of 341", sheet, length, identity, ROOM, 341);
    to_old("a byte too little", lent.out, length + 17, length - 1, 342);
    to_old("scratch of 341", lent.out, length + 17, ROOM, 341);
    lent.out[0] = 3;
    printf("judge, first count 3: %u\n", converter_judge_sheet(lent.out, length + 17));
    print_contents("first count 3", converter_read_sheet(lent.out, length + 17));
    printf("write, a byte too little: %u\n", converter_write_sheet(figures, sheet, length - 1).number);
    figures.cell.cmin = figures.cell.cmax;
    printf("write, CMIN at CMAX: %u\n", converter_write_sheet(figures, sheet, sizeof sheet).number);
    return 0;
}

/* The converter of a load cell: readings, calibration sheet and Modbus RTU (paper 01), with calibration over the bus,
 * a filter level between samples, the four corners of a platform, halves of a step rounded away from zero, so that a
 * cell is pulled as it is pushed, sheets with an identity, flags that outlive RST, readings by a platinum probe, and a
 * SYS that never falls where ELEC rises (paper 02, Changes 1, 2, 4 to 8 and 14), proved in Rattle.
 *
 * Link the archive libboard.a (`rt lib` in crates/board, x86-64) for devices, and liblaboratory.a (`rt lib` in
 * crates/laboratory) for the calls on sheets, which firmware need not carry; either one alone, or both. There is no heap
 * and no global state: everything that a device is stands in one record that the caller keeps, for as long as it likes
 * and where it likes. A call runs to its end on the caller's stack, and two devices are independent of each other.
 *
 * What a caller has to keep:
 * - Pointers are not null and point to what they are said to; lengths are true.
 * - Record, frame and reply buffer of a call do not overlap, and a record is used by one call at a time. Nor do sheet,
 *   output and scratch of a call overlap.
 * - The four records of converter_weigh are four different ones: no pointer is given twice, and no record overlaps
 *   another or the samples. Stations may be equal.
 * - A record that is handed to converter_reading, converter_probe, converter_report, converter_frame or converter_weigh
 *   is the device of an accepted converter_make, or a copy of such a record, changed by these calls alone.
 * - Floats are in the default mode of IEEE 754. Round to nearest: in another mode a sent value beyond +-256, or a gain
 *   or gain adjustment beyond +-1/16, may differ in its last bit. No traps: a call may raise inexact and denormal.
 * Nothing else is asked: every byte and every number is taken, and what does not fit is refused with a number.
 *
 * Who finds the frames: the caller. On the line a frame ends with a silence of 3.5 characters (t3.5); hand over what
 * stood between two silences, whole, and send the reply, if there is one, after the next.
 *
 * Symbols that libboard.a needs: none. Symbols that liblaboratory.a needs: memcpy, memset. (The caller's compiler may
 * ask for memcpy, to assign a record.)
 * Bytes of stack of libboard.a, at most, return address and red zone included: converter_make 2048; converter_reading
 * 128; converter_probe 1024; converter_report 64; converter_frame 1536; converter_weigh 256.
 * Bytes of stack of liblaboratory.a, likewise, and what memcpy and memset take: converter_judge_sheet 2048;
 * converter_read_sheet 3072; converter_write_sheet 1024; converter_move_to_new 2304; converter_move_to_old 2304. */
#ifndef CONVERTER_H
#define CONVERTER_H

#ifndef __cplusplus
#include <stdbool.h>
#endif
#include <stddef.h>
#include <stdint.h>

#ifdef __cplusplus
extern "C" {
#endif

/* Another MAJOR: code that was compiled with the older header must not be linked with this archive. */
#define CONVERTER_VERSION_MAJOR 3
#define CONVERTER_VERSION_MINOR 5
#define CONVERTER_VERSION_PATCH 0

/* Numbers of refusal; 0 is an accepted call. */
enum {
    CONVERTER_SHORT_SHEET = 1,     /* it ends before a count or figure that is due */
    CONVERTER_WRONG_COUNT = 2,     /* a section's count is not the table's */
    CONVERTER_FIGURE = 3,          /* a figure is beyond its range */
    CONVERTER_ORDER = 4,           /* CT or CLX not above the one before */
    CONVERTER_TOO_STEEP = 5,       /* the CLK rule broken */
    CONVERTER_CROSSED = 6,         /* CMIN not below CMAX, or SMIN not below SMAX */
    CONVERTER_TRAILING = 7,        /* bytes after the last section */
    CONVERTER_STATION = 8,         /* not 1 to 247 */
    CONVERTER_BAD_READING = 9,     /* ELEC, TEMP or the integrity byte beyond its range */
    CONVERTER_NO_READING = 10,     /* before the first reading since start or RST */
    CONVERTER_NO_SNAPSHOT = 11,    /* SYSN read with none taken */
    CONVERTER_SHORT_BUFFER = 12,   /* reply buffer under 9 bytes, or a sheet's output too short */
    CONVERTER_NOT_FOR_US = 13,     /* too short or long, wrong checksum, other station, or a broadcast read */
    CONVERTER_FUNCTION = 14,       /* not 3 or 16 */
    CONVERTER_ADDRESS = 15,        /* odd, or not twice a listed register */
    CONVERTER_VALUE = 16,          /* wrong length, quantity or byte count, read-only, or an unfit value */
    CONVERTER_UNFIT_COPY = 17,     /* a sheet with the figures of the waiting copy would be refused */
    CONVERTER_CORNER_REFUSED = 18, /* any of a platform's four readings would be 9 */
    CONVERTER_BUFFERS = 19,        /* of a move: output or scratch too short */
    CONVERTER_PROBE = 20           /* a probe's resistance is below the least or above the most */
};

/* The resistances that converter_probe takes, in 0.0001 ohm: of a Pt100 at -50 degrees, and at 150. */
enum {
    CONVERTER_LEAST_RESISTANCE = 803063,
    CONVERTER_MOST_RESISTANCE = 1573251
};

/* The first count of a sheet: 4 of the old form, 2 of the new one, which has a serial and a day in front. */
enum {
    CONVERTER_OLD_FORM = 4,
    CONVERTER_NEW_FORM = 2
};

/* Bytes of the longest sheet of each form: such a room is always enough. */
enum {
    CONVERTER_LONGEST_OLD = 325,
    CONVERTER_LONGEST_NEW = 342
};

/* Bytes of a move's scratch, at least, whatever the sheet's length. */
enum { CONVERTER_SCRATCH = 342 };

/* Registers, as wire addresses: what stands in a frame, twice 004's register number. Of a table's column it is the
 * first point's, and the next point's is 2 further. CGAI to FFST and CTN to CTO are the figures of the waiting copy;
 * APPLY is "our own register 99", which puts the copy in force. */
enum {
    CONVERTER_REGISTER_STAT = 2 * 6,
    CONVERTER_REGISTER_SOUT = 2 * 9,
    CONVERTER_REGISTER_SYS = 2 * 10,
    CONVERTER_REGISTER_TEMP = 2 * 11,
    CONVERTER_REGISTER_SRAW = 2 * 12,
    CONVERTER_REGISTER_CELL = 2 * 13,
    CONVERTER_REGISTER_FLAG = 2 * 14, /* takes a write */
    CONVERTER_REGISTER_CRAW = 2 * 15,
    CONVERTER_REGISTER_ELEC = 2 * 16,
    CONVERTER_REGISTER_SZ = 2 * 22, /* takes a write */
    CONVERTER_REGISTER_SYSN = 2 * 23,
    CONVERTER_REGISTER_PEAK = 2 * 24,
    CONVERTER_REGISTER_TROF = 2 * 25,
    CONVERTER_REGISTER_CGAI = 2 * 40,        /* takes a write */
    CONVERTER_REGISTER_COFS = 2 * 41,        /* takes a write */
    CONVERTER_REGISTER_CMIN = 2 * 44,        /* takes a write */
    CONVERTER_REGISTER_CMAX = 2 * 45,        /* takes a write */
    CONVERTER_REGISTER_CLN = 2 * 50,         /* takes a write */
    CONVERTER_REGISTER_CLX = 2 * 51,         /* 7 points; takes a write */
    CONVERTER_REGISTER_CLK = 2 * 61,         /* 7 points; takes a write */
    CONVERTER_REGISTER_SGAI = 2 * 70,        /* takes a write */
    CONVERTER_REGISTER_SOFS = 2 * 71,        /* takes a write */
    CONVERTER_REGISTER_SMIN = 2 * 74,        /* takes a write */
    CONVERTER_REGISTER_SMAX = 2 * 75,        /* takes a write */
    CONVERTER_REGISTER_FFLV = 2 * 92,        /* takes a write */
    CONVERTER_REGISTER_FFST = 2 * 93,        /* takes a write */
    CONVERTER_REGISTER_APPLY = 2 * 99,       /* takes a write */
    CONVERTER_REGISTER_RST = 2 * 100,        /* takes a write */
    CONVERTER_REGISTER_SNAP = 2 * 103,       /* takes a write */
    CONVERTER_REGISTER_PEAK_RESET = 2 * 104, /* takes a write */
    CONVERTER_REGISTER_CTN = 2 * 110,        /* takes a write */
    CONVERTER_REGISTER_CT = 2 * 111,         /* 5 points; takes a write */
    CONVERTER_REGISTER_CTG = 2 * 116,        /* 5 points; takes a write */
    CONVERTER_REGISTER_CTO = 2 * 121         /* 5 points; takes a write */
};

/* Bits of STAT and FLAG. STAT is of the last reading. FLAG keeps a bit until a write to FLAG lacks it: RST adds REBOOT
 * and clears none. A start, by converter_make, has REBOOT alone. */
enum {
    CONVERTER_FLAG_TEMPUR = 4,     /* TEMP below -50 degrees */
    CONVERTER_FLAG_TEMPOR = 8,     /* TEMP above 90 degrees */
    CONVERTER_FLAG_ECOMUR = 16,    /* ELEC below -120 % */
    CONVERTER_FLAG_ECOMOR = 32,    /* ELEC above 120 % */
    CONVERTER_FLAG_CRAWUR = 64,    /* raw cell value below CMIN */
    CONVERTER_FLAG_CRAWOR = 128,   /* raw cell value above CMAX */
    CONVERTER_FLAG_SYSUR = 256,    /* raw system value below SMIN */
    CONVERTER_FLAG_SYSOR = 512,    /* raw system value above SMAX */
    CONVERTER_FLAG_LCINTEG = 2048, /* integrity byte 1 */
    CONVERTER_FLAG_REBOOT = 32768  /* a start or RST; in FLAG only */
};

/* ---- The record. Its fields are for the library; a debugger may look at them. Counts are steps of 1/65,536 of a
 * unit, gains of 1/268,435,456.
 *
 * The figures stand twice: readings go by `figures`, those in force; a write to a figure's register goes to `copy`,
 * the waiting copy, and a read of that register shows it. A write to APPLY puts the copy in force from the next
 * reading, or is refused with 17; it leaves SZ, the copy and `state` as they are. RST sets the copy back to the figures
 * in force, forgets readings and snapshot, so that PEAK and TROF begin anew, and keeps every bit of `flag`.
 *
 * Of the last reading, `input` is ELEC as it was handed in, with which the next one is compared by FFLV, and `elec` is
 * the filter's held value. A start and RST forget both; a refused reading and all other writes leave them. */

typedef struct { int64_t cofs, cgai, cmin, cmax; } converter_cell;
typedef struct { int64_t ct, cto, ctg; } converter_temperature_point;
typedef struct { uint8_t ctn; converter_temperature_point points[5]; } converter_temperature;
typedef struct { int64_t clx, clk; } converter_linearity_point;
typedef struct { uint8_t cln; converter_linearity_point points[7]; } converter_linearity;
typedef struct { int64_t sofs, sgai, smin, smax, sz; } converter_system;
typedef struct { int64_t fflv, ffst; } converter_filter;

typedef struct {
    converter_cell cell;
    converter_temperature temperature;
    converter_linearity linearity;
    converter_system system;
    converter_filter filter;
} converter_calibration;

typedef struct { converter_calibration figures, copy; uint8_t station; } converter_setup;
typedef struct { int64_t craw, cell, sraw, sys; uint16_t stat; } converter_values;
typedef struct { bool any; int64_t input, elec, temp; converter_values values; int64_t peak, trof; } converter_readings;
typedef struct { bool taken; int64_t sysn; } converter_snapshot;
typedef struct { converter_readings readings; uint16_t flag; converter_snapshot snapshot; } converter_state;
typedef struct { converter_setup setup; converter_state state; } converter_device;

/* ---- What converter_weigh takes: for each corner what converter_reading takes. */

typedef struct { int64_t elec, temp; uint8_t integrity; } converter_sample;
typedef struct { converter_sample one, two, three, four; } converter_samples;

/* ---- What converter_move_to_new takes: serial 0 to 4,294,967,295, and days after 1 January 2000, 0 to 65,535. */

typedef struct { int64_t serial, day; } converter_identity;

/* ---- What calls answer. */

/* The number, and the device; beside a refusal a record in which every field is 0, which is no device. */
typedef struct { uint8_t number; converter_device device; } converter_outcome;

typedef struct { float sys, peak, trof, cell; } converter_report_values;

/* The number, and the four floats, 0.0 each beside a refusal. */
typedef struct { uint8_t number; converter_report_values report; } converter_reported;

/* The number, and how many bytes were put at the front of the reply buffer, 0 for none. */
typedef struct { uint8_t number; size_t length; } converter_answered;

/* In steps: SYS of each corner, their total, left (one and three), right (two and four), and left less right. */
typedef struct { int64_t one, two, three, four, total, left, right, difference; } converter_weights;

/* The number, and the weights, 0 each beside a refusal. */
typedef struct { uint8_t number; converter_weights weights; } converter_weighed;

/* The number, and what a sheet holds: its form, of a new sheet the identity, else 0 and 0, and the figures, in which
 * points past a count are 0. All 0 beside a refusal. */
typedef struct {
    uint8_t number, form;
    converter_identity identity;
    converter_calibration figures;
} converter_contents;

/* The number, and how many bytes were put at the output's front, 0 beside a refusal. */
typedef struct { uint8_t number; size_t length; } converter_written;

/* The same, and the identity that stood on the sheet, 0 and 0 beside a refusal. */
typedef struct { uint8_t number; size_t length; converter_identity identity; } converter_moved_back;

/* ---- The calls of libboard.a. */

/* A device of a calibration sheet of `length` bytes, of either form, and a station. Takes any bytes and any station.
 * Answers 0 and the device, the same one of both forms; or 8, then 1 to 7, and no device. It writes to no record: one
 * that is in use stays as it is until the caller assigns the new device to it. Neither the sheet nor its identity is
 * kept. */
converter_outcome converter_make(const uint8_t *sheet, size_t length, uint8_t station);

/* A reading: ELEC in steps of a percent, TEMP in steps of a degree, and 0 (sound) or 1 (fault).
 * Answers 0; or 9, and the record is as it was. By one set of figures, at one TEMP, with the filter off and CGAI and SGAI
 * both at least 0, a larger ELEC never gives a smaller CRAW, CELL, SRAW or SYS, in steps or as a float. */
uint8_t converter_reading(converter_device *device, int64_t elec, int64_t temp, uint8_t integrity);

/* A reading with a platinum probe, a Pt100, beside the cell: its resistance, in 0.0001 ohm, stands in the place of
 * TEMP, which comes of it by IEC 60751, from -50 to 150 degrees. All else is as by converter_reading, and the two may
 * take turns. Answers 0; or 20, then 9 for ELEC or the integrity byte, and the record is as it was. */
uint8_t converter_probe(converter_device *device, int64_t elec, int64_t resistance, uint8_t integrity);

/* SYS, PEAK, TROF and CELL. Answers 0; or 10. The record is as it was. */
converter_reported converter_report(const converter_device *device);

/* A bus frame of `length` bytes, checksum included, and a buffer for the reply. Answers 0; or 12 to 16, then 10, 11 or
 * 17, and the record is as it was. A reply has 9 bytes (a read), 8 (a write) or 5 (an exception, to 10, 11 and 14 to
 * 17); there is none to 12, to 13, and to a broadcast. The length replied is never over `room`, and the bytes of the
 * buffer past the reply are untouched. */
converter_answered converter_frame(converter_device *device, const uint8_t *frame, size_t length, uint8_t *reply,
                                   size_t room);

/* Four corners of a platform: a reading at each, all four or none. Answers 0 and the weights, and each device has taken
 * its corner's reading as by converter_reading; or 18, and the four records are as they were. */
converter_weighed converter_weigh(converter_device *one, converter_device *two, converter_device *three,
                                  converter_device *four, const converter_samples *samples);

/* ---- The calls of liblaboratory.a: on sheets, without a device. */

/* Whether a sheet is accepted. Takes any bytes, of either form. Answers 0; or 1 to 7, the first fault from the left. */
uint8_t converter_judge_sheet(const uint8_t *sheet, size_t length);

/* What stands on a sheet of either form. Answers 0 and its contents; or 1 to 7, as converter_judge_sheet, and zeros. */
converter_contents converter_read_sheet(const uint8_t *sheet, size_t length);

/* Writes the figures as an old sheet, 173 to 325 bytes. Points past a count are not looked at. Answers 0 and the
 * length; or 2 to 6, then 12 where `room` is too short. Bytes past the sheet are untouched, beside a refusal all. */
converter_written converter_write_sheet(converter_calibration figures, uint8_t *out, size_t room);

/* Moves an old sheet to the new form with this identity: 17 bytes more, 190 to 342. Answers 0 and the length, and these
 * bytes stand at the front of the output and of the scratch; or 1 to 7 for the sheet, a new one being 2, then 3 for the
 * identity, then 19 where `room` is less than that length, or `scratch_room` than CONVERTER_SCRATCH. Other bytes are
 * untouched, beside a refusal all of both buffers. */
converter_written converter_move_to_new(const uint8_t *sheet, size_t length, converter_identity identity, uint8_t *out,
                                        size_t room, uint8_t *scratch, size_t scratch_room);

/* Moves a new sheet back: gives the old bytes again, 17 less, 173 to 325. Answers 0, the length and the identity; or 1
 * to 7 for the sheet, an old one being 2, then 19. The buffers as by converter_move_to_new. */
converter_moved_back converter_move_to_old(const uint8_t *sheet, size_t length, uint8_t *out, size_t room,
                                           uint8_t *scratch, size_t scratch_room);

/* ---- The archives' layout: does this compiler lay the records out the same? Where not, an array has length -1. */

#define CONVERTER_SIZE(record, size) \
    typedef char converter_##record##_takes_##size[sizeof(converter_##record) == size ? 1 : -1]
#define CONVERTER_AT(record, field, offset) \
    typedef char converter_##record##_##field##_at_##offset[offsetof(converter_##record, field) == offset ? 1 : -1]

CONVERTER_SIZE(cell, 32); CONVERTER_AT(cell, cgai, 8); CONVERTER_AT(cell, cmin, 16); CONVERTER_AT(cell, cmax, 24);
CONVERTER_SIZE(temperature_point, 24); CONVERTER_AT(temperature_point, cto, 8);
CONVERTER_AT(temperature_point, ctg, 16);
CONVERTER_SIZE(temperature, 128); CONVERTER_AT(temperature, points, 8);
CONVERTER_SIZE(linearity_point, 16); CONVERTER_AT(linearity_point, clk, 8);
CONVERTER_SIZE(linearity, 120); CONVERTER_AT(linearity, points, 8);
CONVERTER_SIZE(system, 40); CONVERTER_AT(system, sgai, 8); CONVERTER_AT(system, smin, 16);
CONVERTER_AT(system, smax, 24); CONVERTER_AT(system, sz, 32);
CONVERTER_SIZE(filter, 16); CONVERTER_AT(filter, ffst, 8);
CONVERTER_SIZE(calibration, 336); CONVERTER_AT(calibration, temperature, 32); CONVERTER_AT(calibration, linearity, 160);
CONVERTER_AT(calibration, system, 280); CONVERTER_AT(calibration, filter, 320);
CONVERTER_SIZE(setup, 680); CONVERTER_AT(setup, copy, 336); CONVERTER_AT(setup, station, 672);
CONVERTER_SIZE(values, 40); CONVERTER_AT(values, cell, 8); CONVERTER_AT(values, sraw, 16);
CONVERTER_AT(values, sys, 24); CONVERTER_AT(values, stat, 32);
CONVERTER_SIZE(readings, 88); CONVERTER_AT(readings, input, 8); CONVERTER_AT(readings, elec, 16);
CONVERTER_AT(readings, temp, 24); CONVERTER_AT(readings, values, 32); CONVERTER_AT(readings, peak, 72);
CONVERTER_AT(readings, trof, 80);
CONVERTER_SIZE(snapshot, 16); CONVERTER_AT(snapshot, sysn, 8);
CONVERTER_SIZE(state, 112); CONVERTER_AT(state, flag, 88); CONVERTER_AT(state, snapshot, 96);
CONVERTER_SIZE(device, 792); CONVERTER_AT(device, state, 680);
CONVERTER_SIZE(outcome, 800); CONVERTER_AT(outcome, device, 8);
CONVERTER_SIZE(answered, 16); CONVERTER_AT(answered, length, 8);
CONVERTER_SIZE(report_values, 16); CONVERTER_AT(report_values, peak, 4); CONVERTER_AT(report_values, trof, 8);
CONVERTER_AT(report_values, cell, 12);
CONVERTER_SIZE(reported, 20); CONVERTER_AT(reported, report, 4);
CONVERTER_SIZE(sample, 24); CONVERTER_AT(sample, temp, 8); CONVERTER_AT(sample, integrity, 16);
CONVERTER_SIZE(samples, 96); CONVERTER_AT(samples, two, 24); CONVERTER_AT(samples, three, 48);
CONVERTER_AT(samples, four, 72);
CONVERTER_SIZE(weights, 64); CONVERTER_AT(weights, two, 8); CONVERTER_AT(weights, three, 16);
CONVERTER_AT(weights, four, 24); CONVERTER_AT(weights, total, 32); CONVERTER_AT(weights, left, 40);
CONVERTER_AT(weights, right, 48); CONVERTER_AT(weights, difference, 56);
CONVERTER_SIZE(weighed, 72); CONVERTER_AT(weighed, weights, 8);
CONVERTER_SIZE(identity, 16); CONVERTER_AT(identity, day, 8);
CONVERTER_SIZE(contents, 360); CONVERTER_AT(contents, form, 1); CONVERTER_AT(contents, identity, 8);
CONVERTER_AT(contents, figures, 24);
CONVERTER_SIZE(written, 16); CONVERTER_AT(written, length, 8);
CONVERTER_SIZE(moved_back, 32); CONVERTER_AT(moved_back, length, 8); CONVERTER_AT(moved_back, identity, 16);

#undef CONVERTER_SIZE
#undef CONVERTER_AT

#ifdef __cplusplus
}
#endif
#endif

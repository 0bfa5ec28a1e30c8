/* Emissions by values, each beside the same one by text in another tracer: their statuses, replies and offsets are the same, and so is what is recorded
 * at the end. A kind that there is not is refused, and changes nothing. */
#include <stdio.h>
#include <string.h>

#include "tracectl.h"

enum { PROBE = 2, MOST_VALUES = 20 };

#define TEXT(text) (text), sizeof(text) - 1
#define NUMBER(number) tracectl_unsigned(number)
#define SIGNED(number) tracectl_signed(number)
#define BYTES(text) tracectl_bytes(TEXT(text))

static tracectl given_tracer = TRACECTL_CLOSED, told_tracer = TRACECTL_CLOSED;

static tracectl_thread given = TRACECTL_LEFT, told = TRACECTL_LEFT;

/* The two tracers have the same events: `tick`, and `probe`, whose number is 2. */
static int begin(tracectl *tracer, tracectl_thread *thread) {
    tracectl_settings settings = {.cpus = 2, .pages = 4, .page_bytes = 128, .history_limit = 0};
    return !tracectl_open(tracer, &settings) && !tracectl_join(tracer, thread)
        && !tracectl_append(thread, TEXT("synthetic_events"), TEXT("tick u64 n"))
        && !tracectl_append(thread, TEXT("synthetic_events"), TEXT("probe u64 n; s8 level; char who[8]"))
        && !tracectl_write(thread, TEXT("events/enable"), TEXT("1"));
}

/* The last reply of both tracers, if it is the same. */
static const char *same_reply(void) {
    static char one[4096], other[4096];
    size_t count = tracectl_reply(&given, 0, one, sizeof one - 1);
    if (tracectl_reply(&told, 0, other, sizeof other) != count || memcmp(one, other, count)) return 0;
    one[count] = 0;
    return one;
}

/* Tells what both emissions came to, if that is the same. */
static int compared(const char *name, uint32_t by_values, uint32_t by_text) {
    const char *reply = same_reply();
    int same = reply && by_values == by_text && tracectl_offset(&given) == tracectl_offset(&told) && tracectl_entries(&given) == tracectl_entries(&told);
    return printf("%s: %u%s%s%s\n", name, (unsigned)by_values, reply && *reply ? " " : "", reply ? reply : "", same ? "" : ", and otherwise by text") > 0
        && same;
}

/* Emits `probe` both ways. */
static int probed(const char *name, uint32_t cpu, const tracectl_value *values, size_t count, const char *fields, size_t fields_length) {
    return compared(name, tracectl_emit_values(&given, PROBE, cpu, -7, values, count), tracectl_emit(&told, TEXT("probe"), cpu, -7, fields, fields_length));
}

#define PROBED(name, cpu, fields, ...) \
    probed(name, cpu, (tracectl_value[]){__VA_ARGS__}, sizeof((tracectl_value[]){__VA_ARGS__}) / sizeof(tracectl_value), TEXT(fields))

static int right(void) {
    return PROBED("three values", 0, "n=7\0level=-5\0who=me", NUMBER(7), SIGNED(-5), BYTES("me"))
        && PROBED("the greatest and the least", 1, "n=18446744073709551615\0level=-128\0who=", NUMBER(UINT64_MAX), SIGNED(-128), BYTES(""))
        && PROBED("a signed number from 0", 0, "n=9223372036854775807\0level=127\0who=~", SIGNED(INT64_MAX), SIGNED(127), BYTES("~"))
        && PROBED("bytes for numbers", 0, "n=12\0level=-0\0who=x", BYTES("12"), BYTES("-0"), BYTES("x"))
        && PROBED("numbers for a string", 0, "n=1\0level=1\0who=1234567", NUMBER(1), NUMBER(1), NUMBER(1234567))
        && PROBED("a number with a sign for a string", 0, "n=1\0level=1\0who=-123456", NUMBER(1), NUMBER(1), SIGNED(-123456));
}

static int wrong(void) {
    return PROBED("no such CPU", 2, "n=7\0level=-5\0who=me", NUMBER(7), SIGNED(-5), BYTES("me"))
        && PROBED("too few", 0, "n=7", NUMBER(7))
        && probed("none", 0, (tracectl_value[]){NUMBER(7)}, 0, TEXT(""))
        && PROBED("too many", 0, "n=7\0level=5\0who=me\0=1", NUMBER(7), NUMBER(5), BYTES("me"), NUMBER(1))
        && PROBED("below 0", 0, "n=-1\0level=5\0who=me", SIGNED(-1), NUMBER(5), BYTES("me"))
        && PROBED("the least of all", 0, "n=1\0level=-9223372036854775808\0who=me", NUMBER(1), SIGNED(INT64_MIN), BYTES("me"))
        && PROBED("above the range", 0, "n=1\0level=128\0who=me", NUMBER(1), NUMBER(128), BYTES("me"))
        && PROBED("the greatest of all", 0, "n=1\0level=18446744073709551615\0who=me", NUMBER(1), NUMBER(UINT64_MAX), BYTES("me"))
        && PROBED("bytes that are no number", 0, "n=seven\0level=1\0who=me", BYTES("seven"), NUMBER(1), BYTES("me"))
        && PROBED("no bytes for a number", 0, "n=\0level=1\0who=me", BYTES(""), NUMBER(1), BYTES("me"))
        && PROBED("a string too long", 0, "n=1\0level=1\0who=too long", NUMBER(1), NUMBER(1), BYTES("too long"))
        && PROBED("a number too long for a string", 0, "n=1\0level=1\0who=12345678", NUMBER(1), NUMBER(1), NUMBER(12345678))
        && PROBED("a byte that is not printable", 0, "n=1\0level=1\0who=\t", NUMBER(1), NUMBER(1), BYTES("\t"));
}

/* As many values as no event has fields. The first that is wrong is named. */
static int many(void) {
    tracectl_value values[MOST_VALUES];
    for (int i = 0; i < MOST_VALUES; i++) values[i] = NUMBER(1);
    int done = probed("many", 0, values, MOST_VALUES, TEXT("n=1\0level=1\0who=1\0=1\0=1\0=1"));
    values[1] = NUMBER(1000);
    return probed("many, and one out of range", 0, values, MOST_VALUES, TEXT("n=1\0level=1000\0who=1\0=1\0=1\0=1")) && done;
}

/* Events of eight, nine and sixteen fields, whose numbers are 3, 4 and 5: numbers and strings by turns. Of up to eight values no list is allocated. */
#define EIGHT_FIELDS "u8 a; char b[4]; s8 c; char d[4]; u8 e; char f[4]; s8 g; char h[4]"
#define EIGHT_VALUES "a=1\0b=two\0c=-3\0d=4th\0e=5\0f=six\0g=-7\0h=8th"

enum { FIRST_WIDE = 3, MOST_FIELDS = 16 };

static const struct {
    const char *name, *declared;
    size_t count;
    const char *fields;
    size_t fields_length;
} wide_events[] = {
    {"eight", "eight " EIGHT_FIELDS, 8, TEXT(EIGHT_VALUES)},
    {"nine", "nine " EIGHT_FIELDS "; u8 i", 9, TEXT(EIGHT_VALUES "\0i=9")},
    {"sixteen", "sixteen " EIGHT_FIELDS "; u8 i; char j[4]; s8 k; char l[4]; u8 m; char n[4]; s8 o; char p[4]", 16,
     TEXT(EIGHT_VALUES "\0i=9\0j=ten\0k=-11\0l=12\0m=13\0n=\0o=-15\0p=end")},
};

static int declare(tracectl_thread *thread, const char *declared) {
    return !tracectl_append(thread, TEXT("synthetic_events"), declared, strlen(declared)) && !tracectl_write(thread, TEXT("events/enable"), TEXT("1"));
}

/* Each with all its values, and, by values alone, without the last. */
static int wide(void) {
    const tracectl_value values[MOST_FIELDS] = {NUMBER(1), BYTES("two"), SIGNED(-3),  BYTES("4th"), NUMBER(5),  BYTES("six"), SIGNED(-7),  BYTES("8th"),
                                                NUMBER(9), BYTES("ten"), SIGNED(-11), BYTES("12"),  NUMBER(13), BYTES(""),    SIGNED(-15), BYTES("end")};
    int done = 1;
    for (uint32_t i = 0; i < sizeof wide_events / sizeof *wide_events; i++) {
        const char *name = wide_events[i].name;
        size_t count = wide_events[i].count;
        done &= declare(&given, wide_events[i].declared) && declare(&told, wide_events[i].declared);
        done &= tracectl_emit_values(&given, FIRST_WIDE + i, 1, 7, values, count - 1) == TRACECTL_BAD_ROW;
        done &= compared(name, tracectl_emit_values(&given, FIRST_WIDE + i, 1, 7, values, count),
                         tracectl_emit(&told, name, strlen(name), 1, 7, wide_events[i].fields, wide_events[i].fields_length));
    }
    return done;
}

/* Numbers that no event has. */
static int unknown(void) {
    static const uint32_t numbers[] = {0, 3, 64, 65, UINT32_MAX};
    tracectl_value n = NUMBER(1);
    int same = 1;
    for (size_t i = 0; i < sizeof numbers / sizeof *numbers; i++)
        same &= compared("no such event", tracectl_emit_values(&given, numbers[i], 0, 7, &n, 1), tracectl_emit(&told, TEXT("nothing"), 0, 7, TEXT("n=1")));
    return same && compared("another event", tracectl_emit_values(&given, 1, 0, 7, &n, 1), tracectl_emit(&told, TEXT("tick"), 0, 7, TEXT("n=1")));
}

/* A value of a kind that there is not, in each place. */
static int unknown_kind(void) {
    tracectl_value values[] = {NUMBER(1), NUMBER(1), BYTES("me")};
    uint64_t entries = tracectl_entries(&given);
    int refused = 1;
    for (int i = 0; i < 3; i++) {
        tracectl_value right = values[i];
        values[i].kind = i == 1 ? UINT32_MAX : 3;
        uint32_t status = tracectl_emit_values(&given, PROBE, 9, 7, values, 3);
        refused &= status == TRACECTL_BAD_VALUE && tracectl_reply_length(&given) == 0 && tracectl_entries(&given) == entries;
        refused &= tracectl_emit_values(&given, 1, 9, 7, &values[i], 1) == TRACECTL_BAD_VALUE;
        values[i] = right;
    }
    return printf("unknown kind: %s\n", refused ? "refused" : "not refused") > 0 && refused;
}

/* Such a value among seven, eight and nine, in the seventh to the ninth place, after one that is no number: the kind is looked for first. In the tenth
 * place nobody looks. */
static int unknown_kind_of_many(void) {
    uint64_t entries = tracectl_entries(&given);
    int refused = 1;
    for (size_t count = 7; count <= 9; count++) {
        for (size_t place = 6; place <= 9; place++) {
            tracectl_value values[10];
            for (int i = 0; i < 10; i++) values[i] = NUMBER(1);
            values[2] = BYTES("none");
            values[place].kind = 3;
            refused &= tracectl_emit_values(&given, FIRST_WIDE, 1, 7, values, count) == (place < count ? TRACECTL_BAD_VALUE : TRACECTL_BAD_ROW);
        }
    }
    refused &= tracectl_entries(&given) == entries;
    return printf("unknown kind of many: %s\n", refused ? "refused" : "not refused") > 0 && refused;
}

static int same_file(const char *path) {
    uint32_t statuses[] = {tracectl_read(&given, path, strlen(path)), tracectl_read(&told, path, strlen(path))};
    return compared(path, statuses[0], statuses[1]);
}

int main(void) {
    tracectl_value n = NUMBER(1);
    int done = tracectl_emit_values(&given, 1, 0, 7, &n, 1) == TRACECTL_NOT_JOINED && begin(&given_tracer, &given)
        && begin(&told_tracer, &told);
    done = done && right() && wrong() && many() && unknown() && unknown_kind() && same_file("trace") && same_file("per_cpu/cpu0/stats");
    done = done && wide() && unknown_kind_of_many() && same_file("per_cpu/cpu1/trace");
    return tracectl_leave(&given) || tracectl_leave(&told) || tracectl_close(&given_tracer) || tracectl_close(&told_tracer) || !done;
}

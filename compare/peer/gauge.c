/* The text gauge of document 01, with the changes of document 02 so far (Items 3 and 6), in plain C: the yardstick for
 * the speed of the proved program `gauge`.
 *
 * It does what `gauge` does without arguments: it answers text requests from standard input, each up to its CR, on
 * standard output, from factory settings. It is written as a C programmer would for speed: one pass over a request,
 * replies written in place, no allocation, and nothing of a library but read and write, and memory copied and compared.
 * It uses no vector instructions by hand and keeps no replies.
 *
 * Nothing of it is proved. `measure` (compare/src/bin/measure/) compiles it with -O3, compares its replies with
 * those of the proved program byte for byte, and then gives the proved program's speed over this one's. */

#include <stdbool.h>
#include <stddef.h>
#include <stdint.h>
#include <string.h>
#include <unistd.h>

#define CR 13

/* ---- the gauge */

/* A decimal number: six digits, the first of them at 10^place and not 0. Zero has the digits 0. */
struct number {
    uint32_t digits;
    int8_t place;
    bool negative;
};

/* What a sensor reads. */
enum state { SOUND, UNDER_RANGE, OVER_RANGE, FAULTY };

struct gauge {
    uint8_t address[3]; /* as text */
    uint8_t unit;       /* an index of UNITS */
    uint16_t factor;    /* C1, in hundredths */
    uint8_t cm, cc, fc;
    bool direct; /* ST: D `from`, or F `from` T `to` */
    struct number from, to;
    uint8_t stream[16]; /* SM, as text: `4` and six sources have 15 characters */
    uint8_t stream_len;
    bool unlocked; /* by V1's c1 */
    /* the readings of source 0 and T2, and FS; no request changes them, and here there is no bench */
    enum state pressure_state, temperature_state;
    struct number pressure;
    int16_t temperature; /* in hundredths */
    uint8_t fs;
};

static const char UNITS[3][5] = {"mbar", "Torr", "hPa"};

/* Factory settings, and what the sensors read at the start. */
static const struct gauge FACTORY = {
    .address = {'0', '0', '1'}, .unit = 0, .factor = 100, .cm = 1, .cc = 1, .fc = 0,
    .direct = true, .from = {100000, 0, false},
    .stream = {'0'}, .stream_len = 1, .unlocked = false,
    .pressure_state = SOUND, .pressure = {100000, 0, false},
    .temperature_state = SOUND, .temperature = 2000, .fs = 0,
};

/* The gauge. It is not static, so that no compiler takes what nothing here changes for constant. */
struct gauge the_gauge;

/* The answer numbers that have a reply. */
enum { ACCEPTED = 0, LENGTH = 6, CODE, NO_DEF, ACCESS, SYNTAX, RANGE, LOGIC, FAULT };

static const char ERROR_TEXTS[8][7] = {
    "LENGTH", "_LOGIC", "NO_DEF", "_LOGIC", "SYNTAX", "_RANGE", "_LOGIC", "ERROR1",
};

/* The commands of V2. Those from DA on are settings. */
enum command { MV, T2, FN, FS, DA, DU, C1, CM, CC, FC, ST, SM, UNKNOWN };

/* ---- writing: each function writes at `out` and gives the place after what it wrote */

/* A number as document 01 writes it: 973.4 is 9.734e2. */
static uint8_t *put_number(uint8_t *out, struct number n)
{
    uint32_t rest = n.digits % 100000;

    if (n.digits == 0) {
        *out++ = '0';
        return out;
    }
    if (n.negative)
        *out++ = '-';
    *out++ = '0' + n.digits / 100000;
    if (rest != 0)
        *out++ = '.';
    for (; rest != 0; rest = rest % 10000 * 10)
        *out++ = '0' + rest / 10000;
    *out++ = 'e';
    if (n.place < 0)
        *out++ = '-';
    *out++ = '0' + (n.place < 0 ? -n.place : n.place);
    return out;
}

/* Hundredths, up to 999.99, with two decimals. */
static uint8_t *put_hundredths(uint8_t *out, int hundredths)
{
    unsigned size = hundredths < 0 ? -hundredths : hundredths;
    unsigned whole = size / 100, part = size % 100;

    if (hundredths < 0)
        *out++ = '-';
    if (whole >= 100)
        *out++ = '0' + whole / 100;
    if (whole >= 10)
        *out++ = '0' + whole / 10 % 10;
    *out++ = '0' + whole % 10;
    *out++ = '.';
    *out++ = '0' + part / 10;
    *out++ = '0' + part % 10;
    return out;
}

/* The six digits of V1. */
static uint8_t *put_six(uint8_t *out, uint32_t n)
{
    for (int at = 5; at >= 0; at--) {
        out[at] = '0' + n % 10;
        n /= 10;
    }
    return out + 6;
}

/* The end of a frame that starts at `frame`: checksum and CR. */
static inline uint8_t *close_frame(const uint8_t *frame, uint8_t *end)
{
    unsigned sum = 0;

    while (frame < end)
        sum += *frame++;
    end[0] = sum % 64 + 64;
    end[1] = CR;
    return end + 2;
}

/* ---- reading */

static inline bool is_digit(uint8_t byte)
{
    return (uint8_t)(byte - '0') < 10;
}

/* Reads digits into `value` as long as it has at most six: how many there are. */
static inline size_t read_digits(const uint8_t *text, const uint8_t *end, uint32_t *value)
{
    const uint8_t *at = text;

    for (; at < end && is_digit(*at); at++)
        if (*value < 1000000)
            *value = *value * 10 + (*at - '0');
    return at - text;
}

/* Reads the exponent, from its e to the end: whether it is one. */
static bool read_exponent(const uint8_t *text, const uint8_t *end, int *exponent)
{
    bool negative;

    if (*text != 'e' && *text != 'E')
        return false;
    text++;
    negative = text < end && *text == '-';
    text += negative;
    if (end - text < 1 || end - text > 2 || !is_digit(text[0]) || !is_digit(end[-1]))
        return false;
    *exponent = end - text == 1 ? text[0] - '0' : (text[0] - '0') * 10 + (text[1] - '0');
    if (negative)
        *exponent = -*exponent;
    return true;
}

/* Reads a number of document 01's form: 0, SYNTAX or RANGE. */
static int read_number(const uint8_t *text, const uint8_t *end, struct number *number)
{
    uint32_t value = 0;
    size_t before, after = 0;
    int exponent = 0, place;
    bool negative = text < end && *text == '-';

    text += negative;
    before = read_digits(text, end, &value);
    text += before;
    if (before == 0 || before > 6)
        return SYNTAX;
    if (text < end && *text == '.') {
        after = read_digits(text + 1, end, &value);
        text += 1 + after;
        if (after == 0 || before + after > 6)
            return SYNTAX;
    }
    if (text < end && !read_exponent(text, end, &exponent))
        return SYNTAX;
    *number = (struct number){0, 0, false};
    if (value == 0)
        return ACCEPTED;
    for (place = 5; value < 100000; place--)
        value *= 10;
    place += exponent - (int)after;
    if (place < -9 || place > 9)
        return RANGE;
    *number = (struct number){value, place, negative};
    return ACCEPTED;
}

/* Reads a number of ST, 1 to 20. */
static int read_transition(const uint8_t *text, const uint8_t *end, struct number *number)
{
    int refusal = read_number(text, end, number);

    if (refusal)
        return refusal;
    if (number->digits == 0 || number->negative || number->place < 0 || number->place > 1)
        return RANGE;
    return number->place == 1 && number->digits > 200000 ? RANGE : ACCEPTED;
}

/* ---- V2: writes, which give 0 or a refusal */

static int write_address(struct gauge *gauge, const uint8_t *data, size_t count)
{
    int address;

    if (count != 3 || !is_digit(data[0]) || !is_digit(data[1]) || !is_digit(data[2]))
        return SYNTAX;
    address = (data[0] - '0') * 100 + (data[1] - '0') * 10 + (data[2] - '0');
    if (address < 1 || address > 16)
        return RANGE;
    memcpy(gauge->address, data, 3);
    return ACCEPTED;
}

static int write_unit(struct gauge *gauge, const uint8_t *data, size_t count)
{
    if (count == 4 && memcmp(data, "mbar", 4) == 0)
        gauge->unit = 0;
    else if (count == 4 && memcmp(data, "Torr", 4) == 0)
        gauge->unit = 1;
    else if (count == 3 && memcmp(data, "hPa", 3) == 0)
        gauge->unit = 2;
    else
        return SYNTAX;
    return ACCEPTED;
}

/* C1: whole hundredths, 0.20 to 8.00. */
static int write_factor(struct gauge *gauge, const uint8_t *data, size_t count)
{
    struct number number;
    uint32_t hundredth;
    int refusal = read_number(data, data + count, &number);

    if (refusal)
        return refusal;
    if (number.digits == 0 || number.negative || number.place < -1 || number.place > 0)
        return RANGE;
    hundredth = number.place == 0 ? 1000 : 10000;
    if (number.digits % hundredth != 0 || number.digits / hundredth < 20 || number.digits / hundredth > 800)
        return RANGE;
    gauge->factor = number.digits / hundredth;
    return ACCEPTED;
}

static int write_digit(uint8_t *setting, uint8_t largest, const uint8_t *data, size_t count)
{
    if (count != 1 || !is_digit(data[0]))
        return SYNTAX;
    if (data[0] - '0' > largest)
        return RANGE;
    *setting = data[0] - '0';
    return ACCEPTED;
}

/* CC: its form comes before the rule that it is locked while CM is 1. */
static int write_cc(struct gauge *gauge, const uint8_t *data, size_t count)
{
    uint8_t digit;
    int refusal = write_digit(&digit, 1, data, count);

    if (refusal)
        return refusal;
    if (gauge->cm == 1)
        return LOGIC;
    gauge->cc = digit;
    return ACCEPTED;
}

/* ST with F and T: SYNTAX of either number comes before RANGE of the other. */
static int write_between(struct gauge *gauge, const uint8_t *data, const uint8_t *end)
{
    struct number from, to;
    const uint8_t *middle = data;
    int refusal, other;

    while (middle < end && *middle != 'T')
        middle++;
    if (middle == end)
        return SYNTAX;
    refusal = read_transition(data, middle, &from);
    other = read_transition(middle + 1, end, &to);
    if (refusal == ACCEPTED || other == SYNTAX)
        refusal = other;
    if (refusal)
        return refusal;
    if (from.place > to.place || (from.place == to.place && from.digits >= to.digits))
        return LOGIC;
    gauge->direct = false;
    gauge->from = from;
    gauge->to = to;
    return ACCEPTED;
}

static int write_st(struct gauge *gauge, const uint8_t *data, size_t count)
{
    struct number number;
    int refusal;

    if (count > 0 && data[0] == 'F')
        return write_between(gauge, data + 1, data + count);
    if (count == 0 || data[0] != 'D')
        return SYNTAX;
    refusal = read_transition(data + 1, data + count, &number);
    if (refusal)
        return refusal;
    gauge->direct = true;
    gauge->from = number;
    return ACCEPTED;
}

/* The sources as bits of a set: a digit, or T and a digit. */
#define DIGIT(digit) (1u << ((digit) - '0'))
#define T_DIGIT(digit) (DIGIT(digit) << 10)
#define SOURCES (DIGIT('0') | DIGIT('1') | DIGIT('2') | DIGIT('6') | DIGIT('7') | T_DIGIT('2') | T_DIGIT('6'))
/* Two digits: of the form of a source, and none. */
#define TWO_DIGITS (1u << 20)

/* One entry of SM's list as a bit; no bit where its form is wrong. */
static inline uint32_t source_bit(const uint8_t *name, size_t count)
{
    if (count == 1 && is_digit(name[0]))
        return DIGIT(name[0]);
    if (count == 2 && is_digit(name[1]) && name[0] == 'T')
        return T_DIGIT(name[1]);
    return count == 2 && is_digit(name[1]) && is_digit(name[0]) ? TWO_DIGITS : 0;
}

/* SM: a mode, and D and a source so many times. The form of the whole comes before what lies outside, and that before
 * a source that stands twice; 0 stands in each line already. */
static int write_sm(struct gauge *gauge, const uint8_t *data, size_t count)
{
    const uint8_t *at = data + 1, *end = data + count;
    uint32_t seen = DIGIT('0');
    bool repeated = false;

    if (count == 0 || !is_digit(data[0]) || (count > 1 && data[0] == '0'))
        return SYNTAX;
    if (at < end && *at != 'D')
        return SYNTAX;
    while (at < end) {
        const uint8_t *name = ++at;
        uint32_t bit;

        while (at < end && *at != 'D')
            at++;
        bit = source_bit(name, at - name);
        if (bit == 0)
            return SYNTAX;
        repeated |= (seen & bit) != 0;
        seen |= bit;
    }
    if ((seen & ~SOURCES) != 0 || (data[0] != '0' && data[0] != '4'))
        return RANGE;
    if (repeated)
        return LOGIC;
    memcpy(gauge->stream, data, count);
    gauge->stream_len = count;
    return ACCEPTED;
}

static int write_setting(struct gauge *gauge, enum command command, const uint8_t *data, size_t count)
{
    switch (command) {
    case DA: return write_address(gauge, data, count);
    case DU: return write_unit(gauge, data, count);
    case C1: return write_factor(gauge, data, count);
    case CM: return write_digit(&gauge->cm, 1, data, count);
    case CC: return write_cc(gauge, data, count);
    case FC: return write_digit(&gauge->fc, 3, data, count);
    case ST: return write_st(gauge, data, count);
    case SM: return write_sm(gauge, data, count);
    case UNKNOWN: return NO_DEF;
    default: return ACCESS;
    }
}

/* ---- V2: defaults and reads */

static int restore_setting(struct gauge *gauge, enum command command, size_t count)
{
    if (command == UNKNOWN)
        return NO_DEF;
    if (command < DA || command == SM)
        return ACCESS;
    if (count != 0)
        return SYNTAX;
    switch (command) {
    case DA: memcpy(gauge->address, FACTORY.address, 3); break;
    case DU: gauge->unit = FACTORY.unit; break;
    case C1: gauge->factor = FACTORY.factor; break;
    case CM: gauge->cm = FACTORY.cm; break;
    case CC:
        if (gauge->cm == 1)
            return LOGIC;
        gauge->cc = FACTORY.cc;
        break;
    case FC: gauge->fc = FACTORY.fc; break;
    default:
        gauge->direct = FACTORY.direct;
        gauge->from = FACTORY.from;
        gauge->to = FACTORY.to;
    }
    return ACCEPTED;
}

static int judge_read(const struct gauge *gauge, enum command command, size_t count)
{
    if (command == UNKNOWN)
        return NO_DEF;
    if (count != 0)
        return SYNTAX;
    if ((command == MV && gauge->pressure_state == FAULTY) || (command == T2 && gauge->temperature_state == FAULTY))
        return FAULT;
    return ACCEPTED;
}

static uint8_t *put_pressure(uint8_t *out, const struct gauge *gauge)
{
    if (gauge->pressure_state == SOUND)
        return put_number(out, gauge->pressure);
    memcpy(out, gauge->pressure_state == UNDER_RANGE ? "UR" : "OR", 2);
    return out + 2;
}

static uint8_t *put_transition(uint8_t *out, const struct gauge *gauge)
{
    *out++ = gauge->direct ? 'D' : 'F';
    out = put_number(out, gauge->from);
    if (gauge->direct)
        return out;
    *out++ = 'T';
    return put_number(out, gauge->to);
}

static uint8_t *put_digit(uint8_t *out, uint8_t digit)
{
    *out = '0' + digit;
    return out + 1;
}

/* FN: FC where that is 1 or 2, else by FS. */
static uint8_t filament(const struct gauge *gauge)
{
    if (gauge->fc == 1 || gauge->fc == 2)
        return gauge->fc;
    return gauge->fs == 1 || gauge->fs == 3 ? 2 : 1;
}

/* The data of the reply to a read. */
static uint8_t *put_value(uint8_t *out, const struct gauge *gauge, enum command command)
{
    switch (command) {
    case MV: return put_pressure(out, gauge);
    case T2: return put_hundredths(out, gauge->temperature);
    case FN: return put_digit(out, filament(gauge));
    case FS: return put_digit(out, gauge->fs);
    case DA: memcpy(out, gauge->address, 3); return out + 3;
    case DU: memcpy(out, UNITS[gauge->unit], 4); return out + (gauge->unit == 2 ? 3 : 4);
    case C1: return put_hundredths(out, gauge->factor);
    case CM: return put_digit(out, gauge->cm);
    case CC: return put_digit(out, gauge->cc);
    case FC: return put_digit(out, gauge->fc);
    case ST: return put_transition(out, gauge);
    default: memcpy(out, gauge->stream, 16); return out + gauge->stream_len;
    }
}

/* ---- V2: a request that passed check 5 */

#define NAME(first, second) ((first) << 8 | (second))

static inline enum command command_of(const uint8_t *name)
{
    switch (NAME(name[0], name[1])) {
    case NAME('M', 'V'): return MV;
    case NAME('T', '2'): return T2;
    case NAME('F', 'N'): return FN;
    case NAME('F', 'S'): return FS;
    case NAME('D', 'A'): return DA;
    case NAME('D', 'U'): return DU;
    case NAME('C', '1'): return C1;
    case NAME('C', 'M'): return CM;
    case NAME('C', 'C'): return CC;
    case NAME('F', 'C'): return FC;
    case NAME('S', 'T'): return ST;
    case NAME('S', 'M'): return SM;
    default: return UNKNOWN;
    }
}

/* Whether LEN is two digits and the count of the data. */
static inline bool counts(const uint8_t *len, size_t count)
{
    return is_digit(len[0]) && is_digit(len[1]) && (size_t)((len[0] - '0') * 10 + (len[1] - '0')) == count;
}

static uint8_t *answer_v2(struct gauge *gauge, const uint8_t *request, size_t len, uint8_t *out)
{
    const uint8_t access = request[3], *name = request + 4, *data = request + 8;
    size_t count = len - 10;
    uint8_t *end = out + 8;
    int refusal;

    memcpy(out, request, 8);
    if (!counts(request + 6, count)) {
        refusal = LENGTH;
    } else if (access == '0') {
        enum command command = command_of(name);

        refusal = judge_read(gauge, command, count);
        if (refusal == ACCEPTED)
            end = put_value(end, gauge, command);
    } else if (access == '2') {
        refusal = write_setting(gauge, command_of(name), data, count);
    } else if (access == '4') {
        refusal = restore_setting(gauge, command_of(name), count);
    } else {
        refusal = CODE;
    }
    out[3] = access + 1;
    if (refusal) {
        out[3] = '7';
        memcpy(end, ERROR_TEXTS[refusal - LENGTH], 6);
        end += 6;
    }
    count = end - out - 8;
    out[6] = '0' + count / 10;
    out[7] = '0' + count % 10;
    return close_frame(out, end);
}

/* ---- V1: a request that passed check 5 */

/* The one number that C and c know: 0, SYNTAX or RANGE. */
static int judge_one(const uint8_t *data, size_t count)
{
    if (count != 1 || !is_digit(data[0]))
        return SYNTAX;
    return data[0] == '1' ? ACCEPTED : RANGE;
}

static bool read_six(const uint8_t *data, size_t count, uint32_t *value)
{
    *value = 0;
    for (size_t at = 0; at < count; at++) {
        if (!is_digit(data[at]))
            return false;
        *value = *value * 10 + (data[at] - '0');
    }
    return count == 6;
}

/* `c`: an unlock, or a write of the factor, for which the gauge has to be unlocked. */
static int write_factor_v1(struct gauge *gauge, bool unlocked, const uint8_t *data, size_t count)
{
    uint32_t factor;
    int refusal;

    if (read_six(data, count, &factor)) {
        if (!unlocked)
            return LOGIC;
        if (factor < 20 || factor > 800)
            return RANGE;
        gauge->factor = factor;
        return ACCEPTED;
    }
    refusal = judge_one(data, count);
    gauge->unlocked = refusal == ACCEPTED;
    return refusal;
}

static int write_unit_v1(struct gauge *gauge, const uint8_t *data, size_t count)
{
    uint32_t unit;

    if (!read_six(data, count, &unit))
        return SYNTAX;
    if (unit > 2)
        return RANGE;
    gauge->unit = unit;
    return ACCEPTED;
}

/* M's data: four digits, rounded half up, and the exponent plus 20. */
static uint8_t *put_pressure_v1(uint8_t *out, const struct gauge *gauge)
{
    uint32_t four = (gauge->pressure.digits + 50) / 100, exponent = gauge->pressure.place + 20;

    switch (gauge->pressure_state) {
    case UNDER_RANGE: return put_six(out, 0);
    case OVER_RANGE: return put_six(out, 999999);
    case FAULTY: return put_digit(out, 1);
    default: return put_six(out, four < 10000 ? four * 100 + exponent : 100000 + exponent + 1);
    }
}

static uint8_t *answer_v1(struct gauge *gauge, const uint8_t *request, size_t len, uint8_t *out)
{
    const uint8_t *data = request + 4;
    size_t count = len - 6;
    bool unlocked = gauge->unlocked;
    int refusal = count == 0 ? ACCEPTED : SYNTAX; /* of M and U, which have no data; V1 sends SYNTAX as _LOGIC */

    gauge->unlocked = false;
    memcpy(out, request, 12);
    switch (request[3]) {
    case 'M':
        if (refusal)
            break;
        return close_frame(out, put_pressure_v1(out + 4, gauge));
    case 'U':
        if (refusal)
            break;
        return close_frame(out, put_six(out + 4, gauge->unit));
    case 'C':
        refusal = judge_one(data, count);
        if (refusal)
            break;
        return close_frame(out, put_six(out + 4, gauge->factor));
    case 'c':
        refusal = write_factor_v1(gauge, unlocked, data, count);
        break;
    case 'u':
        refusal = write_unit_v1(gauge, data, count);
        break;
    default:
        memcpy(out + 3, "NO_DEF", 6);
        return close_frame(out, out + 9);
    }
    if (refusal == ACCEPTED)
        return out + len; /* the request, repeated */
    memcpy(out + 4, refusal == RANGE ? "_RANGE" : "_LOGIC", 6);
    return close_frame(out, out + 10);
}

/* ---- the stream of requests */

/* How many bytes of an unfinished request are kept: with a CR it is then too long, whatever comes between. */
#define KEPT_MAX 110
/* The room that an answer is lent at least. */
#define ROOM 64
#define INPUT_MAX 65536

/* The input has some bytes more, since a V1 request is copied as 12 bytes, however long it is. */
static uint8_t input[INPUT_MAX + 12], output[65536];

/* What one pass over a request finds. */
struct scan {
    const uint8_t *end; /* its CR, or the end of the input */
    unsigned sum;       /* of the bytes before the CR */
    unsigned strange;   /* how many of them are outside 32 to 126 */
};

static inline bool is_strange(uint8_t byte)
{
    return (uint8_t)(byte - 32) > 126 - 32;
}

static inline struct scan scan_request(const uint8_t *request, const uint8_t *end)
{
    struct scan scan = {request, 0, 0};

    for (; scan.end < end && *scan.end != CR; scan.end++) {
        scan.sum += *scan.end;
        scan.strange += is_strange(*scan.end);
    }
    return scan;
}

/* Whether a request of this kind, a digit for V2 or a letter for V1, can have so many bytes. */
static inline bool length_fits(uint8_t kind, size_t len)
{
    if (is_digit(kind))
        return len >= 10 && len <= 109;
    return len <= 12 && (uint8_t)((kind | 32) - 'a') <= 'z' - 'a';
}

/* Answers one request: the place after its reply, if it has one. The checks 2 to 5 are silent. */
static inline uint8_t *answer(struct gauge *gauge, const uint8_t *request, struct scan scan, uint8_t *out)
{
    size_t len = scan.end + 1 - request;
    uint8_t checksum, kind;

    if (len < 6)
        return out;
    checksum = scan.end[-1];
    kind = request[3];
    if (scan.strange != is_strange(checksum))
        return out;
    if (!length_fits(kind, len))
        return out;
    if (checksum != (scan.sum - checksum) % 64 + 64)
        return out;
    /* this gauge has an address from 001 to 016, so one that is no address is another one too */
    if (memcmp(request, gauge->address, 3) != 0)
        return out;
    return is_digit(kind) ? answer_v2(gauge, request, len, out) : answer_v1(gauge, request, len, out);
}

static bool write_all(const uint8_t *bytes, const uint8_t *end)
{
    while (bytes < end) {
        ssize_t written = write(STDOUT_FILENO, bytes, end - bytes);

        if (written <= 0)
            return false;
        bytes += written;
    }
    return true;
}

/* Answers the whole requests of the input up to `end`: the place after them, or NULL where a write failed. */
static const uint8_t *serve(struct gauge *gauge, const uint8_t *end)
{
    const uint8_t *at = input;
    uint8_t *out = output;

    for (;;) {
        struct scan scan = scan_request(at, end);

        if (scan.end == end)
            return write_all(output, out) ? at : NULL;
        out = answer(gauge, at, scan, out);
        at = scan.end + 1;
        if (output + sizeof output - out < ROOM) {
            if (!write_all(output, out))
                return NULL;
            out = output;
        }
    }
}

int main(void)
{
    size_t kept = 0;

    the_gauge = FACTORY;
    for (;;) {
        ssize_t got = read(STDIN_FILENO, input + kept, INPUT_MAX - kept);
        const uint8_t *end, *rest;

        if (got <= 0)
            return got < 0;
        end = input + kept + got;
        rest = serve(&the_gauge, end);
        if (rest == NULL)
            return 1;
        kept = end - rest < KEPT_MAX ? end - rest : KEPT_MAX;
        memmove(input, rest, kept);
    }
}

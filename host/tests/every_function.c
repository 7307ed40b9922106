/*
 * Calls every function of include/bazintroa.h. What is right is document 01's, from its rules and the
 * cases that it works by hand, or worked out in the head.
 *
 * The name of each function is printed before it is tried. Each wrong answer gives a line on standard
 * error, and status 1. tests/header.rs builds and runs it.
 */
#include <bazintroa.h>
#include <math.h>
#include <stdio.h>
#include <string.h>

/* Stands in a place before a call that must not write it. */
#define MARK 12345.678

static const char *tried;
static int wrong = 0;

static void begin(const char *name) {
    tried = name;
    printf("%s\n", name);
    fflush(stdout);
}

static void expect(int right, const char *what, int line) {
    if (!right) {
        fprintf(stderr, "%s is wrong, line %d: %s\n", tried, line, what);
        wrong = 1;
    }
}

#define TRY(function) begin(#function)
#define EXPECT(right) expect((right) != 0, #right, __LINE__)

/* The same bits, so that 0 is not -0. */
static int same(double x, double y) {
    return memcmp(&x, &y, sizeof x) == 0;
}

static int is(const double z[2], double re, double im) {
    return z[0] == re && z[1] == im;
}

/* The places of a call that answers nothing, which it must leave. */
static double out = MARK;
static double pair[2] = {MARK, MARK};

static int left(void) {
    return same(out, MARK) && same(pair[0], MARK) && same(pair[1], MARK);
}

static double long_list[4097];

/* ---- numbers and complex numbers ---- */

static void numbers(void) {
    TRY(bazintroa_sqrt);
    EXPECT(same(bazintroa_sqrt(2.25), 1.5));
    EXPECT(same(bazintroa_sqrt(0x1p-1074), 0x1p-537));
    EXPECT(same(bazintroa_sqrt(-0.0), -0.0));
    EXPECT(same(bazintroa_sqrt(INFINITY), INFINITY));
    EXPECT(isnan(bazintroa_sqrt(-1)));

    TRY(bazintroa_abs);
    EXPECT(same(bazintroa_abs(-1.5), 1.5));
    EXPECT(same(bazintroa_abs(1.5), 1.5));
    EXPECT(same(bazintroa_abs(-0.0), 0.0));
}

static void complex_numbers(void) {
    const double z[2] = {1, 2}, w[2] = {3, 4}, product[2] = {-5, 10}, zero[2] = {0, 0};
    const double one_one[2] = {1, 1}, least[2] = {0x1p-26, 0}, less[2] = {0x1p-27, 0};
    double answer[2];

    TRY(bazintroa_complex_multiply);
    bazintroa_complex_multiply(z, w, answer);
    EXPECT(is(answer, -5, 10));

    TRY(bazintroa_complex_add);
    bazintroa_complex_add(z, w, answer);
    EXPECT(is(answer, 4, 6));

    TRY(bazintroa_complex_sub);
    bazintroa_complex_sub(z, product, answer);
    EXPECT(is(answer, 6, -8));

    TRY(bazintroa_complex_magnitude);
    EXPECT(same(bazintroa_complex_magnitude(w), 5));

    TRY(bazintroa_complex_magnitude_sq);
    EXPECT(same(bazintroa_complex_magnitude_sq(w), 25));

    TRY(bazintroa_complex_reciprocal);
    EXPECT(bazintroa_complex_reciprocal(one_one, answer) == BAZINTROA_OK && is(answer, 0.5, -0.5));
    EXPECT(bazintroa_complex_reciprocal(least, answer) == BAZINTROA_OK && is(answer, 0x1p26, 0));
    EXPECT(bazintroa_complex_reciprocal(less, pair) == BAZINTROA_NONE && left());

    TRY(bazintroa_complex_divide);
    EXPECT(bazintroa_complex_divide(product, w, answer) == 0 && is(answer, 1, 2));
    EXPECT(bazintroa_complex_divide(product, zero, pair) == BAZINTROA_NONE && left());

    TRY(bazintroa_complex_divide_or_zero);
    bazintroa_complex_divide_or_zero(product, w, answer);
    EXPECT(is(answer, 1, 2));
    bazintroa_complex_divide_or_zero(product, zero, answer);
    EXPECT(is(answer, 0, 0));
}

/* ---- a loop at one frequency ---- */

/* Frequency 0, and a quarter turn. */
static const double cosines_0[2] = {1, 1}, sines_0[2] = {-0.0, -0.0};
static const double cosines_quarter[3] = {1, 0, -1}, sines_quarter[3] = {0, -1, 0};

static void evaluation(void) {
    const double one[8] = {1}, half[8] = {-0.5}, pole[8] = {-1};
    /* z^-1 / (1 + 0.5 z^-2), which is -i / 0.5 at a quarter turn. */
    const double b[8] = {0, 1}, a[8] = {0, 0.5};
    double answer[2];

    TRY(bazintroa_eval_tf_complex);
    EXPECT(bazintroa_eval_tf_complex(one, half, 1, cosines_0, 2, sines_0, 2, answer) == 0);
    EXPECT(is(answer, 2, 0));
    EXPECT(bazintroa_eval_tf_complex(b, a, 2, cosines_quarter, 3, sines_quarter, 3, answer) == 0);
    EXPECT(is(answer, 0, -2));
    EXPECT(bazintroa_eval_tf_complex(one, pole, 1, cosines_0, 2, sines_0, 2, answer) == 0);
    EXPECT(is(answer, 0, 0));
    answer[0] = MARK;
    EXPECT(bazintroa_eval_tf_complex(one, half, 0, cosines_0, 1, sines_0, 1, answer) == 0);
    EXPECT(is(answer, 0, 0));
    EXPECT(bazintroa_eval_tf_complex(one, half, 9, cosines_0, 2, sines_0, 1, pair)
           == BAZINTROA_WRONG_ORDER && left());
    EXPECT(bazintroa_eval_tf_complex(one, half, 1, cosines_0, 2, sines_0, 1, pair)
           == BAZINTROA_LENGTHS_DIFFER && left());
    EXPECT(bazintroa_eval_tf_complex(one, half, 1, cosines_0, 1, sines_0, 1, pair)
           == BAZINTROA_TOO_FEW_PAIRS && left());
}

/* The loop that document 01 works by hand, with L = 1; one with L = -1, which leaves nothing to
 * divide by; and what is refused. */
#define RESPONSE(function, re, less_re)                                                               \
    do {                                                                                              \
        TRY(function);                                                                                \
        EXPECT(function(one, half, 1, c, none, 1, cosines_0, 2, sines_0, 2, answer) == 0);            \
        EXPECT(is(answer, re, 0));                                                                    \
        EXPECT(function(one, none, 1, minus, none, 1, cosines_0, 2, sines_0, 2, answer) == 0);        \
        EXPECT(is(answer, less_re, 0));                                                               \
        EXPECT(function(one, half, 1, c, none, 9, cosines_0, 2, sines_0, 1, pair)                     \
               == BAZINTROA_WRONG_ORDER && left());                                                   \
        EXPECT(function(one, half, 1, c, none, 1, cosines_0, 2, sines_0, 1, pair)                     \
               == BAZINTROA_LENGTHS_DIFFER && left());                                                \
        EXPECT(function(one, half, 1, c, none, 2, cosines_0, 2, sines_0, 2, pair)                     \
               == BAZINTROA_TOO_FEW_PAIRS && left());                                                 \
    } while (0)

static void responses(void) {
    const double one[8] = {1}, half[8] = {-0.5}, c[8] = {0.5}, none[8] = {0}, minus[8] = {-1};
    double answer[2];

    RESPONSE(bazintroa_loop_gain_at, 1, -1);
    RESPONSE(bazintroa_sensitivity_at, 0.5, 0);
    RESPONSE(bazintroa_comp_sensitivity_at, 0.5, 0);
    RESPONSE(bazintroa_control_sensitivity_at, 0.25, 0);
}

/* ---- scans ---- */

/* Document 01's sweep; and S beside its T, where S - T is -20, -2 and 6. */
static const double omega[4] = {1, 2, 4, 8}, db[4] = {6, 2, -2, -10};
static const double phase[4] = {-90, -120, -160, -200};
static const double s_db[3] = {-20, -3, 1}, t_db[3] = {0, -1, -5};

#define LISTS(omega, db, phase, n) omega, n, db, n, phase, n

/* What each scan of three lists refuses, and that one reading has no answer. */
#define SCAN(function)                                                                                \
    do {                                                                                              \
        EXPECT(function(omega, 4, db, 3, phase, 4, &out) == BAZINTROA_LENGTHS_DIFFER && left());      \
        EXPECT(function(LISTS(long_list, long_list, long_list, 4097), &out)                           \
               == BAZINTROA_TOO_MANY && left());                                                      \
        EXPECT(function(LISTS(omega, db, phase, 1), &out) == BAZINTROA_NONE && left());               \
    } while (0)

static void scans(void) {
    const double omega_back[4] = {1, 4, 2, 3}, db_back[4] = {5, 5, 1, -1};
    const double phase_back[4] = {-100, -140, -150, -170};
    const double omega_past[2] = {1.5, 4503599627370499}, db_past[2] = {1, 0};
    double x;

    TRY(bazintroa_gain_crossover_frequency);
    EXPECT(bazintroa_gain_crossover_frequency(LISTS(omega, db, phase, 4), &x) == 0 && x == 3);
    EXPECT(bazintroa_gain_crossover_frequency(LISTS(omega_back, db_back, phase_back, 4), &x) == 0);
    EXPECT(x == 2.5);
    EXPECT(bazintroa_gain_crossover_frequency(LISTS(omega_past, db_past, phase, 2), &x) == 0);
    EXPECT(x == 4503599627370500);
    SCAN(bazintroa_gain_crossover_frequency);

    TRY(bazintroa_phase_crossover_frequency);
    EXPECT(bazintroa_phase_crossover_frequency(LISTS(omega, db, phase, 4), &x) == 0 && x == 6);
    SCAN(bazintroa_phase_crossover_frequency);

    TRY(bazintroa_gain_margin);
    EXPECT(bazintroa_gain_margin(LISTS(omega, db, phase, 4), &x) == 0 && x == 6);
    SCAN(bazintroa_gain_margin);

    TRY(bazintroa_phase_margin);
    EXPECT(bazintroa_phase_margin(LISTS(omega, db, phase, 4), &x) == 0 && x == 40);
    EXPECT(bazintroa_phase_margin(LISTS(omega_back, db_back, phase_back, 4), &x) == 0 && x == 60);
    EXPECT(bazintroa_phase_margin(LISTS(omega_past, db_past, phase, 2), &out)
           == BAZINTROA_NONE && left());
    SCAN(bazintroa_phase_margin);

    TRY(bazintroa_sensitivity_crossover);
    EXPECT(bazintroa_sensitivity_crossover(LISTS(omega, s_db, t_db, 3), &x) == 0 && x == 2.5);
    SCAN(bazintroa_sensitivity_crossover);

    TRY(bazintroa_bandwidth);
    EXPECT(bazintroa_bandwidth(LISTS(omega, s_db, t_db, 3), &x) == 0 && x == 3);
    SCAN(bazintroa_bandwidth);
}

static void curves_and_readings(void) {
    const double re[2] = {0, -1}, im[2] = {0, 0.5}, far[2] = {1e200, NAN}, zero[2] = {0, 0};
    const bazintroa_reading readings[4] = {{1, 6, -90}, {2, 2, -120}, {4, -2, -160}, {8, -10, -200}};
    static const bazintroa_reading many[4097];
    double x;

    TRY(bazintroa_distance_to_critical);
    EXPECT(bazintroa_distance_to_critical(re, 2, im, 2, &x) == 0 && x == 0.5);
    EXPECT(bazintroa_distance_to_critical(re, 0, im, 0, &x) == 0 && x == 0);
    x = MARK;
    EXPECT(bazintroa_distance_to_critical(far, 2, zero, 2, &x) == 0 && x == 0);
    EXPECT(bazintroa_distance_to_critical(re, 2, im, 1, &out) == BAZINTROA_LENGTHS_DIFFER && left());
    EXPECT(bazintroa_distance_to_critical(long_list, 4097, long_list, 4097, &out)
           == BAZINTROA_TOO_MANY && left());

    TRY(bazintroa_gain_crossover_readings);
    EXPECT(bazintroa_gain_crossover_readings(readings, 4, &x) == 0 && x == 3);
    EXPECT(bazintroa_gain_crossover_readings(readings, 2, &out) == BAZINTROA_NONE && left());
    EXPECT(bazintroa_gain_crossover_readings(many, 4097, &out) == BAZINTROA_TOO_MANY && left());
}

/* ---- grids ---- */

#define GRID(function, range)                                                                         \
    do {                                                                                              \
        EXPECT(function(8, 5, list, 6) == 0);                                                         \
        EXPECT(list[0] == 0 && list[1] == 2 && list[2] == 4 && list[3] == 6 && list[4] == 8);         \
        EXPECT(same(list[5], MARK));                                                                  \
        EXPECT(function(NAN, 2, list, 6) == 0 && isnan(list[1]));                                     \
        list[0] = list[1] = MARK;                                                                     \
        EXPECT(function(8, 1, list, 6) == BAZINTROA_INSUFFICIENT_POINTS);                             \
        EXPECT(function(8, 0, list, 6) == BAZINTROA_INSUFFICIENT_POINTS);                             \
        EXPECT(function(0, 2, list, 6) == range && function(-8, 2, list, 6) == range);                \
        EXPECT(function(8, 7, list, 6) == BAZINTROA_NO_ROOM);                                         \
        EXPECT(function(8, 4097, long_list, 4097) == BAZINTROA_TOO_MANY);                             \
        EXPECT(same(list[0], MARK) && same(list[1], MARK) && same(long_list[4096], 0));               \
        EXPECT(function(8, 4096, long_list, 4096) == 0 && same(long_list[4095], 8));                  \
        memset(long_list, 0, sizeof long_list);                                                       \
    } while (0)

static void grids(void) {
    double list[6] = {MARK, MARK, MARK, MARK, MARK, MARK};

    TRY(bazintroa_fill_gain_grid);
    GRID(bazintroa_fill_gain_grid, BAZINTROA_INVALID_PARAMETER);

    TRY(bazintroa_fill_frequency_grid);
    GRID(bazintroa_fill_frequency_grid, BAZINTROA_INVALID_FREQUENCY_RANGE);
}

/* ---- the root locus ---- */

static int zeros(const double *poles, size_t from) {
    for (size_t i = 2 * from; i < 16; i++)
        if (poles[i] != 0)
            return 0;
    return 1;
}

/* Whether one of four poles lies there, up to what the search leaves. */
static int has(const double *poles, double re, double im) {
    for (size_t i = 0; i < 4; i++)
        if (fabs(poles[2 * i] - re) < 1e-9 && fabs(poles[2 * i + 1] - im) < 1e-9)
            return 1;
    return 0;
}

/* The places of a point, and how it ended. */
static double gain = MARK, poles[16];
static size_t count = 99;
static uint32_t ending = 99;
static double ending_value = MARK;

#define PLACES &gain, poles, &count, &ending, &ending_value

static int ended(uint32_t kind, double value) {
    return ending == kind && same(ending_value, value);
}

static void locus(void) {
    const double b1[8] = {0.5}, a1[8] = {-0.5}, b2[8] = {0, 1}, a2[8] = {-1, 0.25};
    const double b_none[8] = {-1}, a_none[8] = {0.5}, none[8] = {0};
    const double a3[8] = {0, 0, 0.125}, a4[8] = {0, 0, 0, -1}, a_half[8] = {0, 0, 0, 0.25};
    const double a_met[8] = {-2, 4, 2, 3}, a_spent[8] = {5, -1, 2, 1};
    const double a_nan[8] = {NAN}, a_infinite[8] = {-INFINITY}, a_huge[8] = {0, 0, 0, 1.7e308};

    TRY(bazintroa_locus_point);
    EXPECT(bazintroa_locus_point(b1, a1, 1, 2, 2, 1, PLACES) == 0 && ended(BAZINTROA_SETTLED, 0));
    EXPECT(gain == 2 && count == 1 && is(poles, 0.25, 0) && zeros(poles, 1));
    EXPECT(bazintroa_locus_point(b2, a2, 2, 0.5, 2, 0, PLACES) == 0 && ended(BAZINTROA_SETTLED, 0));
    EXPECT(gain == 0 && count == 2 && is(poles, 0.5, 0) && is(poles + 2, 0.5, 0) && zeros(poles, 2));
    EXPECT(bazintroa_locus_point(b_none, a_none, 1, 1, 2, 1, PLACES) == 0);
    EXPECT(gain == 1 && count == 0 && zeros(poles, 0) && ended(BAZINTROA_SETTLED, 0));
    /* z^4 - 1, whose poles are where the search starts, and order 8 passes. */
    EXPECT(bazintroa_locus_point(none, a4, 4, 1, 5, 3, PLACES) == 0 && ended(BAZINTROA_SETTLED, 1));
    EXPECT(gain == 0.75 && count == 4 && zeros(poles, 4));
    EXPECT(has(poles, 1, 0) && has(poles, -1, 0) && has(poles, 0, 1) && has(poles, 0, -1));
    EXPECT(bazintroa_locus_point(b1, a1, 8, 1, 2, 0, PLACES) == 0 && count == 8);
    EXPECT(bazintroa_locus_point(b1, a1, 1, NAN, 2, 1, PLACES) == 0 && isnan(gain));

    /* z^4 + 0.25 settles later; 1, -2, 4, 2, 3 settles with two poles at -1, where it is 8. */
    EXPECT(bazintroa_locus_point(none, a_half, 4, 1, 2, 0, PLACES) == 0 && has(poles, -0.5, 0.5));
    EXPECT(ending == BAZINTROA_SETTLED && ending_value > 1 && ending_value < 20);
    EXPECT(bazintroa_locus_point(none, a_met, 4, 1, 2, 0, PLACES) == 0);
    EXPECT(has(poles, -1, 0) && ended(BAZINTROA_SETTLED, 31));
    /* A pole still moves in the last round. */
    EXPECT(bazintroa_locus_point(none, a_spent, 4, 1, 2, 0, PLACES) == 0 && count == 4);
    EXPECT(ending == BAZINTROA_SPENT && ending_value > 0.05 && ending_value < 0.06);
    /* NaN by a formula and by a search. Infinite is not NaN. */
    EXPECT(bazintroa_locus_point(none, a_nan, 1, 1, 2, 0, PLACES) == 0 && isnan(poles[0]));
    EXPECT(count == 1 && ended(BAZINTROA_BROKEN, 0));
    EXPECT(bazintroa_locus_point(none, a_huge, 4, 1, 2, 0, PLACES) == 0 && isnan(poles[0]));
    EXPECT(count == 4 && ended(BAZINTROA_BROKEN, 0));
    EXPECT(bazintroa_locus_point(none, a_infinite, 1, 1, 2, 0, PLACES) == 0);
    EXPECT(is(poles, INFINITY, 0) && ended(BAZINTROA_SETTLED, 0));

    gain = poles[0] = poles[15] = ending_value = MARK;
    count = ending = 99;
    EXPECT(bazintroa_locus_point(b1, a1, 9, 0, 1, 1, PLACES) == BAZINTROA_INSUFFICIENT_POINTS);
    EXPECT(bazintroa_locus_point(b1, a1, 0, 0, 2, 2, PLACES) == BAZINTROA_INVALID_PARAMETER);
    EXPECT(bazintroa_locus_point(b1, a1, 9, 1, 4097, 0, PLACES) == BAZINTROA_INVALID_PARAMETER);
    EXPECT(bazintroa_locus_point(b1, a1, 0, 1, 4097, 4097, PLACES) == BAZINTROA_WRONG_ORDER);
    EXPECT(bazintroa_locus_point(b1, a3, 3, 1, 4097, 4097, PLACES) == BAZINTROA_TOO_MANY);
    EXPECT(bazintroa_locus_point(b1, a3, 3, 1, 2, 2, PLACES) == BAZINTROA_WRONG_INDEX);
    EXPECT(bazintroa_locus_point(b1, a3, 3, 1, 2, 1, PLACES) == BAZINTROA_CUBIC_LEFT_OUT);
    EXPECT(same(gain, MARK) && same(poles[0], MARK) && same(poles[15], MARK) && count == 99);
    EXPECT(ended(99, MARK));
}

static void stability(void) {
    double poles[16] = {0.5, 0.5};

    TRY(bazintroa_stability_region);
    EXPECT(bazintroa_stability_region(poles, 1));
    EXPECT(bazintroa_stability_region(poles, 8));
    poles[14] = 1;
    EXPECT(bazintroa_stability_region(poles, 7));
    EXPECT(!bazintroa_stability_region(poles, 8));
    EXPECT(!bazintroa_stability_region(poles, 99));
    poles[14] = NAN;
    EXPECT(bazintroa_stability_region(poles, 8));
}

/* ---- summaries ---- */

/* Without padding every byte is one of a field, and each field stands where the header has it. */
#define PLACE(type, field, at) _Static_assert(offsetof(type, field) == (at), #field)
PLACE(bazintroa_reading, omega, 0);
PLACE(bazintroa_reading, db, 8);
PLACE(bazintroa_reading, phase, 16);
_Static_assert(sizeof(bazintroa_reading) == 24, "reading");
PLACE(bazintroa_bode_summary, read, 0);
PLACE(bazintroa_bode_summary, gain_found, 4);
PLACE(bazintroa_bode_summary, phase_found, 8);
PLACE(bazintroa_bode_summary, reserved, 12);
PLACE(bazintroa_bode_summary, first, 16);
PLACE(bazintroa_bode_summary, last, 40);
PLACE(bazintroa_bode_summary, gain, 64);
PLACE(bazintroa_bode_summary, phase, 72);
_Static_assert(sizeof(bazintroa_bode_summary) == 80, "summary");
PLACE(bazintroa_bode_fed, reserved, 4);
PLACE(bazintroa_bode_fed, summary, 8);
PLACE(bazintroa_sensitivity_reading, s, 8);
PLACE(bazintroa_sensitivity_reading, t, 16);
PLACE(bazintroa_sensitivity_summary, crossover_found, 4);
PLACE(bazintroa_sensitivity_summary, bandwidth_state, 8);
PLACE(bazintroa_sensitivity_summary, reserved, 12);
PLACE(bazintroa_sensitivity_summary, first, 16);
PLACE(bazintroa_sensitivity_summary, last, 40);
PLACE(bazintroa_sensitivity_summary, crossover, 64);
PLACE(bazintroa_sensitivity_summary, bandwidth, 72);
_Static_assert(sizeof(bazintroa_sensitivity_summary) == 80, "summary");
PLACE(bazintroa_sensitivity_fed, reserved, 4);
PLACE(bazintroa_sensitivity_fed, summary, 8);
PLACE(bazintroa_curve_summary, reserved, 4);
PLACE(bazintroa_curve_summary, re, 8);
PLACE(bazintroa_curve_summary, im, 16);
_Static_assert(sizeof(bazintroa_curve_summary) == 24, "summary");
PLACE(bazintroa_curve_fed, reserved, 4);
PLACE(bazintroa_curve_fed, summary, 8);

#define SAME_BYTES(a, b) (memcmp(&(a), &(b), sizeof(a)) == 0)
static const unsigned char nothing[80];
#define ALL_ZERO(a) (memcmp(&(a), nothing, sizeof(a)) == 0)

static void bode(void) {
    double x;

    TRY(bazintroa_bode_empty);
    bazintroa_bode_summary empty = bazintroa_bode_empty();
    EXPECT(ALL_ZERO(empty));

    TRY(bazintroa_bode_feed);
    bazintroa_bode_fed fed = bazintroa_bode_feed(empty, LISTS(omega, db, phase, 2));
    EXPECT(fed.number == 0 && fed.summary.read == 1 && fed.summary.gain_found == 0);
    EXPECT(fed.reserved == 0 && fed.summary.reserved == 0);
    EXPECT(fed.summary.first.omega == 1 && fed.summary.last.omega == 2);
    bazintroa_bode_summary first = fed.summary;
    EXPECT(bazintroa_bode_feed(first, omega, 4, db, 4, phase, 3).number == BAZINTROA_LENGTHS_DIFFER);
    fed = bazintroa_bode_feed(first, LISTS(long_list, long_list, long_list, 4097));
    EXPECT(fed.number == BAZINTROA_TOO_MANY && fed.reserved == 0 && SAME_BYTES(fed.summary, first));
    fed = bazintroa_bode_feed(first, LISTS(omega + 2, db + 2, phase + 2, 2));
    EXPECT(fed.number == 0 && fed.summary.first.phase == -90 && fed.summary.last.phase == -200);
    bazintroa_bode_summary whole = fed.summary;

    TRY(bazintroa_bode_join);
    bazintroa_bode_summary second =
        bazintroa_bode_feed(empty, LISTS(omega + 2, db + 2, phase + 2, 2)).summary;
    bazintroa_bode_summary joined = bazintroa_bode_join(first, second);
    EXPECT(joined.first.db == 6 && joined.last.db == -10 && joined.reserved == 0);
    EXPECT(SAME_BYTES(joined, whole));
    EXPECT(joined.gain_found == 1 && joined.gain == 3);
    EXPECT(joined.phase_found == 1 && joined.phase == 6);

    TRY(bazintroa_bode_gain_crossover);
    EXPECT(bazintroa_bode_gain_crossover(whole, &x) == 0 && x == 3);
    EXPECT(bazintroa_bode_gain_crossover(first, &out) == BAZINTROA_NONE && left());
    empty.gain_found = 7;
    empty.gain = 5;
    EXPECT(bazintroa_bode_gain_crossover(empty, &x) == 0 && x == 5);

    TRY(bazintroa_bode_phase_crossover);
    EXPECT(bazintroa_bode_phase_crossover(whole, &x) == 0 && x == 6);
    EXPECT(bazintroa_bode_phase_crossover(second, &x) == 0 && x == 6);
    EXPECT(bazintroa_bode_phase_crossover(first, &out) == BAZINTROA_NONE && left());
}

static void sensitivity(void) {
    double x;

    TRY(bazintroa_sensitivity_empty);
    bazintroa_sensitivity_summary empty = bazintroa_sensitivity_empty();
    EXPECT(ALL_ZERO(empty));

    TRY(bazintroa_sensitivity_feed);
    bazintroa_sensitivity_fed fed = bazintroa_sensitivity_feed(empty, LISTS(omega, s_db, t_db, 2));
    EXPECT(fed.number == 0 && fed.summary.read == 1 && fed.summary.first.s == -20);
    EXPECT(fed.reserved == 0 && fed.summary.reserved == 0);
    EXPECT(fed.summary.last.omega == 2 && fed.summary.last.s == -3 && fed.summary.last.t == -1);
    bazintroa_sensitivity_summary first = fed.summary;
    EXPECT(bazintroa_sensitivity_feed(first, omega, 3, s_db, 2, t_db, 3).number
           == BAZINTROA_LENGTHS_DIFFER);
    fed = bazintroa_sensitivity_feed(first, LISTS(long_list, long_list, long_list, 4097));
    EXPECT(fed.number == BAZINTROA_TOO_MANY && fed.reserved == 0 && SAME_BYTES(fed.summary, first));
    fed = bazintroa_sensitivity_feed(first, LISTS(omega + 2, s_db + 2, t_db + 2, 1));
    EXPECT(fed.number == 0 && fed.summary.last.omega == 4 && fed.summary.last.t == -5);
    bazintroa_sensitivity_summary whole = fed.summary;

    TRY(bazintroa_sensitivity_join);
    bazintroa_sensitivity_summary second =
        bazintroa_sensitivity_feed(empty, LISTS(omega + 2, s_db + 2, t_db + 2, 1)).summary;
    bazintroa_sensitivity_summary joined = bazintroa_sensitivity_join(first, second);
    EXPECT(joined.first.omega == 1 && joined.last.omega == 4 && joined.reserved == 0);

    TRY(bazintroa_sensitivity_summary_crossover);
    EXPECT(bazintroa_sensitivity_summary_crossover(whole, &x) == 0 && x == 2.5);
    x = MARK;
    EXPECT(bazintroa_sensitivity_summary_crossover(joined, &x) == 0 && x == 2.5);
    EXPECT(bazintroa_sensitivity_summary_crossover(first, &out) == BAZINTROA_NONE && left());

    TRY(bazintroa_sensitivity_summary_bandwidth);
    EXPECT(bazintroa_sensitivity_summary_bandwidth(whole, &x) == 0 && x == 3);
    EXPECT(bazintroa_sensitivity_summary_bandwidth(first, &out) == BAZINTROA_NONE && left());
    EXPECT(bazintroa_sensitivity_summary_bandwidth(joined, &out) == BAZINTROA_NOT_KEPT && left());
    joined = bazintroa_sensitivity_join(whole, empty);
    EXPECT(bazintroa_sensitivity_summary_bandwidth(joined, &out) == BAZINTROA_NOT_KEPT && left());
    empty.bandwidth_state = 7;
    EXPECT(bazintroa_sensitivity_summary_bandwidth(empty, &out) == BAZINTROA_NOT_KEPT && left());
}

static void curve(void) {
    const double re[2] = {0, -1}, im[2] = {0, 0.5}, far[2] = {1e200, NAN}, zero[2] = {0, 0};

    TRY(bazintroa_curve_empty);
    bazintroa_curve_summary empty = bazintroa_curve_empty();
    EXPECT(ALL_ZERO(empty));

    TRY(bazintroa_curve_feed);
    bazintroa_curve_fed fed = bazintroa_curve_feed(empty, far, 2, zero, 2);
    EXPECT(fed.number == 0 && fed.summary.found == 0);
    fed = bazintroa_curve_feed(empty, re, 1, im, 1);
    EXPECT(fed.number == 0 && fed.summary.found == 1 && fed.summary.re == 0 && fed.summary.im == 0);
    EXPECT(fed.reserved == 0 && fed.summary.reserved == 0);
    bazintroa_curve_summary first = fed.summary;
    EXPECT(bazintroa_curve_feed(first, re, 2, im, 1).number == BAZINTROA_LENGTHS_DIFFER);
    fed = bazintroa_curve_feed(first, long_list, 4097, long_list, 4097);
    EXPECT(fed.number == BAZINTROA_TOO_MANY && fed.reserved == 0 && SAME_BYTES(fed.summary, first));
    fed = bazintroa_curve_feed(first, re + 1, 1, im + 1, 1);
    EXPECT(fed.number == 0 && fed.summary.re == -1 && fed.summary.im == 0.5);
    bazintroa_curve_summary whole = fed.summary;

    TRY(bazintroa_curve_join);
    bazintroa_curve_summary second = bazintroa_curve_feed(empty, re + 1, 1, im + 1, 1).summary;
    bazintroa_curve_summary joined = bazintroa_curve_join(first, second);
    EXPECT(SAME_BYTES(joined, whole));

    TRY(bazintroa_curve_closest_approach);
    EXPECT(bazintroa_curve_closest_approach(empty) == 0);
    EXPECT(bazintroa_curve_closest_approach(first) == 1);
    EXPECT(bazintroa_curve_closest_approach(whole) == 0.5);
    EXPECT(bazintroa_curve_closest_approach(joined) == 0.5);
}

/* What a point gives that no feed would have kept, in a struct that is made up: its squared distance
 * is a NaN, or infinite. */
static void made_up_curve(void) {
    const double re[2] = {0, -1}, im[2] = {0, 0.5};
    bazintroa_curve_summary empty = bazintroa_curve_empty(), nan = empty, far = empty;
    bazintroa_curve_summary fed = bazintroa_curve_feed(empty, re, 2, im, 2).summary, after;
    nan.found = 7;
    nan.re = INFINITY;
    nan.im = NAN;
    far.found = 7;
    far.re = 1e200;

    tried = "bazintroa_curve_feed";
    after = bazintroa_curve_feed(nan, re, 2, im, 2).summary;
    EXPECT(after.found == 1 && after.re == INFINITY && isnan(after.im));
    after = bazintroa_curve_feed(far, re, 0, im, 0).summary;
    EXPECT(after.found == 1 && after.re == 1e200 && after.im == 0);
    after = bazintroa_curve_feed(far, re, 2, im, 2).summary;
    EXPECT(after.found == 1 && after.re == -1 && after.im == 0.5);

    tried = "bazintroa_curve_join";
    after = bazintroa_curve_join(nan, fed);
    EXPECT(after.found == 1 && after.re == INFINITY && isnan(after.im));
    after = bazintroa_curve_join(fed, nan);
    EXPECT(after.found == 1 && after.re == -1 && after.im == 0.5);
    EXPECT(bazintroa_curve_join(empty, nan).found == 0);
    after = bazintroa_curve_join(far, fed);
    EXPECT(after.found == 1 && after.re == -1 && after.im == 0.5);
    after = bazintroa_curve_join(fed, far);
    EXPECT(after.found == 1 && after.re == -1 && after.im == 0.5);
    EXPECT(bazintroa_curve_join(empty, far).found == 0);
    after = bazintroa_curve_join(nan, far);
    EXPECT(after.re == INFINITY);
    after = bazintroa_curve_join(far, nan);
    EXPECT(after.found == 1 && after.re == 1e200);

    tried = "bazintroa_curve_closest_approach";
    EXPECT(isnan(bazintroa_curve_closest_approach(nan)));
    EXPECT(bazintroa_curve_closest_approach(far) == 0);
    far.re = -INFINITY;
    EXPECT(bazintroa_curve_closest_approach(far) == 0);
}

/* ---- the set-up panel ---- */

static void put(double x, uint8_t *bytes) {
    uint64_t bits;
    memcpy(&bits, &x, sizeof bits);
    for (int i = 0; i < 8; i++)
        bytes[i] = (uint8_t)(bits >> (8 * i));
}

static int reads(const uint8_t *bytes, double x) {
    uint8_t expected[8];
    put(x, expected);
    return memcmp(bytes, expected, 8) == 0;
}

#define PANEL(function, x)                                                                            \
    do {                                                                                              \
        memset(answer, 9, sizeof answer);                                                             \
        EXPECT(function(sweep, 96, answer, 7) == BAZINTROA_NO_ROOM);                                  \
        EXPECT(function(sweep, 95, answer, 7) == BAZINTROA_WRONG_BYTE_COUNT);                         \
        EXPECT(function(many, sizeof many, answer, 7) == BAZINTROA_TOO_MANY);                         \
        EXPECT(function(sweep, 24, answer, 9) == BAZINTROA_NONE);                                     \
        EXPECT(answer[0] == 9 && answer[6] == 9);                                                     \
        EXPECT(function(sweep, 96, answer, 9) == 0 && reads(answer, x) && answer[8] == 9);            \
        /* The first frequency is a NaN. */                                                           \
        EXPECT(function(damaged, 48, answer, 8) == 0);                                                \
        EXPECT(memcmp(answer, "\x00\x00\x00\x00\x00\x00\xF8\x7F", 8) == 0);                           \
    } while (0)

static void panel(void) {
    static const uint8_t many[4097 * 24];
    uint8_t sweep[96], damaged[48], answer[9];
    for (int i = 0; i < 4; i++) {
        put(omega[i], sweep + 24 * i);
        put(db[i], sweep + 24 * i + 8);
        put(phase[i], sweep + 24 * i + 16);
    }
    memcpy(damaged, sweep, 24);
    memcpy(damaged + 24, sweep + 72, 24);
    put(NAN, damaged);

    TRY(bazintroa_panel_gain_crossover);
    PANEL(bazintroa_panel_gain_crossover, 3);

    TRY(bazintroa_panel_phase_crossover);
    PANEL(bazintroa_panel_phase_crossover, 6);
}

int main(void) {
    numbers();
    complex_numbers();
    evaluation();
    responses();
    scans();
    curves_and_readings();
    grids();
    locus();
    stability();
    bode();
    sensitivity();
    curve();
    made_up_curve();
    panel();
    return wrong;
}

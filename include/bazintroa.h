/*
 * Frequency-domain analysis of a discrete-time control loop, for hosts in C.
 *
 * Every function is proved: docs/STATEMENTS.md says what each one promises, for every
 * argument. `tools/archives/run` writes target/staticlib/libc_api.a; the summaries are in
 * libc_summaries.a and the panel in libpanel.a, which it writes likewise.
 *
 * Numbers. A function that may turn a call away returns
 *     0    BAZINTROA_OK                       a result: the places have been written
 *     100  BAZINTROA_NONE                     no crossing, no margin, no quotient
 *     101  BAZINTROA_NOT_KEPT                 the bandwidth of a summary after a join
 *     or the first refusal that applies:
 *     1    BAZINTROA_INSUFFICIENT_POINTS      fewer than two points
 *     2    BAZINTROA_INVALID_FREQUENCY_RANGE  a top frequency 0 or below; a NaN passes
 *     3    BAZINTROA_INVALID_PARAMETER        a parameter out of range
 *     11   BAZINTROA_LENGTHS_DIFFER           lists of different lengths
 *     12   BAZINTROA_CUBIC_LEFT_OUT           degree 3 is left out
 *     13   BAZINTROA_TOO_FEW_PAIRS            too few cosines and sines
 *     14   BAZINTROA_NO_ROOM                  the lent list is too short
 *     15   BAZINTROA_TOO_MANY                 more than 4,096 readings or points
 *     16   BAZINTROA_WRONG_ORDER              an order out of range
 *     17   BAZINTROA_WRONG_INDEX              an index out of range
 *     19   BAZINTROA_WRONG_BYTE_COUNT         not a whole number of readings in bytes
 * On any number but 0 nothing is written. More refusals may come.
 *
 * Memory. The caller owns everything that it passes: a function reads and writes it during
 * the call and keeps nothing. A list is a pointer and its length; the pointer must not be
 * NULL, also where the length is 0, and must be aligned for its type. A place that is
 * written must overlap nothing else that the call is given. Nothing is allocated, and calls
 * from several threads do not disturb each other.
 *
 * Frequencies are in radians per sample, magnitudes in decibels, phases in degrees. NaN,
 * infinities and unsorted frequencies are allowed everywhere.
 */
#ifndef BAZINTROA_H
#define BAZINTROA_H

#include <stdbool.h>
#include <stddef.h>
#include <stdint.h>

#define BAZINTROA_VERSION "0.1.0"
#define BAZINTROA_VERSION_MAJOR 0
#define BAZINTROA_VERSION_MINOR 1
#define BAZINTROA_VERSION_PATCH 0

/* What a function returns, as the table above says. */
#define BAZINTROA_OK 0u
#define BAZINTROA_NONE 100u
#define BAZINTROA_NOT_KEPT 101u

/* The refusals. */
#define BAZINTROA_INSUFFICIENT_POINTS 1u
#define BAZINTROA_INVALID_FREQUENCY_RANGE 2u
#define BAZINTROA_INVALID_PARAMETER 3u
#define BAZINTROA_LENGTHS_DIFFER 11u
#define BAZINTROA_CUBIC_LEFT_OUT 12u
#define BAZINTROA_TOO_FEW_PAIRS 13u
#define BAZINTROA_NO_ROOM 14u
#define BAZINTROA_TOO_MANY 15u
#define BAZINTROA_WRONG_ORDER 16u
#define BAZINTROA_WRONG_INDEX 17u
#define BAZINTROA_WRONG_BYTE_COUNT 19u

/* How the search for the poles of a locus point ended: its place `ending`. */
#define BAZINTROA_SETTLED 0u
#define BAZINTROA_SPENT 1u
#define BAZINTROA_BROKEN 2u

#ifdef __cplusplus
extern "C" {
#endif

/* ---- numbers ---- */

/* The square root, IEEE 754's squareRoot to nearest: of -0 it is -0, of less it is NaN. */
double bazintroa_sqrt(double x);

/* x with its sign cleared, that of -0 too. A NaN stays a NaN, of either sign. */
double bazintroa_abs(double x);

/* ---- complex numbers: real part, then imaginary part (as C's double complex) ---- */

void bazintroa_complex_multiply(const double z[2], const double w[2], double out[2]);
void bazintroa_complex_add(const double z[2], const double w[2], double out[2]);
void bazintroa_complex_sub(const double z[2], const double w[2], double out[2]);
double bazintroa_complex_magnitude(const double z[2]);
double bazintroa_complex_magnitude_sq(const double z[2]);

/* 1 / z and z / w: 0, or 100 where the divisor's squared magnitude is below 2^-52. */
uint32_t bazintroa_complex_reciprocal(const double z[2], double out[2]);
uint32_t bazintroa_complex_divide(const double z[2], const double w[2], double out[2]);

/* z / w, and (0, 0) where there is none. */
void bazintroa_complex_divide_or_zero(const double z[2], const double w[2], double out[2]);

/* ---- a loop at one frequency ----
 * A transfer function of an order n up to 8 has n coefficients b and n coefficients a:
 *     (b[0] + b[1] z^-1 + ..) / (1 + a[0] z^-1 + a[1] z^-2 + ..)
 * The arrays have eight places; those past the order are ignored. Place k of the two lists
 * holds cosine and sine of -(omega * k); at least order + 1 are needed, more are ignored.
 * Refused: 16 if an order is above 8, 11 if the lists differ in length, 13 if they are short.
 * The value is (0, 0), and 0 is returned, where the denominator's squared magnitude is below
 * 2^-52, and for order 0. */

uint32_t bazintroa_eval_tf_complex(const double b[8], const double a[8], size_t order,
                                   const double *cosines, size_t cosines_len,
                                   const double *sines, size_t sines_len, double out[2]);

/* Loop gain L = P C, S = 1 / (1 + L), T = L / (1 + L), Q = C / (1 + L), of the values P and C
 * above. Where the squared magnitude of 1 + L is below 2^-52, S, T and Q are (0, 0), and 0 is
 * returned. */
uint32_t bazintroa_loop_gain_at(const double plant_b[8], const double plant_a[8], size_t plant_order,
                                const double controller_b[8], const double controller_a[8],
                                size_t controller_order, const double *cosines, size_t cosines_len,
                                const double *sines, size_t sines_len, double out[2]);
uint32_t bazintroa_sensitivity_at(const double plant_b[8], const double plant_a[8], size_t plant_order,
                                  const double controller_b[8], const double controller_a[8],
                                  size_t controller_order, const double *cosines, size_t cosines_len,
                                  const double *sines, size_t sines_len, double out[2]);
uint32_t bazintroa_comp_sensitivity_at(const double plant_b[8], const double plant_a[8],
                                       size_t plant_order, const double controller_b[8],
                                       const double controller_a[8], size_t controller_order,
                                       const double *cosines, size_t cosines_len,
                                       const double *sines, size_t sines_len, double out[2]);
uint32_t bazintroa_control_sensitivity_at(const double plant_b[8], const double plant_a[8],
                                          size_t plant_order, const double controller_b[8],
                                          const double controller_a[8], size_t controller_order,
                                          const double *cosines, size_t cosines_len,
                                          const double *sines, size_t sines_len, double out[2]);

/* ---- scans over a sweep ----
 * Lists of equal length, at most 4,096 long. Refused: 11, 15. None: 100. */

/* Where the magnitude first crosses 0 dB, and where the phase first crosses -180 degrees. */
uint32_t bazintroa_gain_crossover_frequency(const double *omega, size_t omega_len, const double *db,
                                            size_t db_len, const double *phase, size_t phase_len,
                                            double *out);
uint32_t bazintroa_phase_crossover_frequency(const double *omega, size_t omega_len,
                                             const double *db, size_t db_len, const double *phase,
                                             size_t phase_len, double *out);

/* The negated magnitude at the phase crossover, and 180 plus the phase at the gain crossover. */
uint32_t bazintroa_gain_margin(const double *omega, size_t omega_len, const double *db,
                               size_t db_len, const double *phase, size_t phase_len, double *out);
uint32_t bazintroa_phase_margin(const double *omega, size_t omega_len, const double *db,
                                size_t db_len, const double *phase, size_t phase_len, double *out);

/* Where S and T, in dB, are first equal, and where T first drops 3 dB below its first value. */
uint32_t bazintroa_sensitivity_crossover(const double *omega, size_t omega_len, const double *s,
                                         size_t s_len, const double *t, size_t t_len, double *out);
uint32_t bazintroa_bandwidth(const double *omega, size_t omega_len, const double *s, size_t s_len,
                             const double *t, size_t t_len, double *out);

/* The least distance of a curve's points from (-1, 0). A point whose distance is a NaN, or whose
 * square overflows, does not count; where none counts it is 0. */
uint32_t bazintroa_distance_to_critical(const double *re, size_t re_len, const double *im,
                                        size_t im_len, double *out);

/* One reading of a Bode sweep. */
typedef struct {
    double omega;
    double db;
    double phase;
} bazintroa_reading;

/* The gain crossover of a list of readings. Refused: 15. */
uint32_t bazintroa_gain_crossover_readings(const bazintroa_reading *readings, size_t readings_len,
                                           double *out);

/* ---- grids ----
 * The first n places of the list are written, the rest keeps its contents. Refused: 1 if
 * n < 2, 3 (gains) or 2 (frequencies) if the top is 0 or below (a NaN passes), 15 if n > 4,096,
 * 14 if the list is shorter than n. */

/* (k_max * i) / (n - 1) */
uint32_t bazintroa_fill_gain_grid(double k_max, size_t n, double *list, size_t list_len);

/* (i / (n - 1)) * omega_max */
uint32_t bazintroa_fill_frequency_grid(double omega_max, size_t n, double *list, size_t list_len);

/* ---- the root locus ---- */

/* Point i of n: the gain (k_max * i) / (n - 1) and the poles of the closed loop there, eight
 * places of real and imaginary part, (0, 0) past the count. Refused: 1 if n < 2, 3 if k_max is
 * 0 or below (a NaN passes) or the order is above 8, 16 if it is 0, 15 if n > 4,096, 17 if i >= n,
 * 12 if the degree left is 3.
 *
 * No poles, one or two come without a search, four to eight from one of up to 200 rounds. Look at
 * how it ended before the poles:
 *     ending             ending_value
 *     BAZINTROA_SETTLED  the round, 1 to 200, that moved no pole by 1e-12 or more; 0 without a search
 *     BAZINTROA_SPENT    the largest move of the last of 200 rounds, 1e-12 or more
 *     BAZINTROA_BROKEN   0; a part of a pole is NaN, which comes before the others
 * Settled does not mean right. Two poles that meet have denominators too small to divide by, are
 * skipped from then on and add no change: order 4, b 0, a (-2, 4, 2, 3) is settled in round 31 with
 * (-1, 0) twice, to within 1e-15, where the polynomial 1, -2, 4, 2, 3 is 8. Multiplied out, right
 * poles give the polynomial back.
 *
 * All five places are written on 0; a refused call writes none. */
uint32_t bazintroa_locus_point(const double b[8], const double a[8], size_t order, double k_max,
                               size_t n, size_t i, double *gain, double poles[16], size_t *count,
                               uint32_t *ending, double *ending_value);

/* False exactly if one of the first `count` poles, of at most eight, has squared magnitude 1 or
 * more. A NaN pole has not, so true says nothing of a point that is broken. */
bool bazintroa_stability_region(const double poles[16], size_t count);

/* ---- summaries ----
 * A sweep of any length that comes in parts. A summary is made empty, fed with parts of at most
 * 4,096 readings and joined with another, which puts that one's readings behind its own; it then
 * answers what the scan of the whole list would, whatever the cuts. The caller keeps it; its
 * size does not grow. Zeros are the empty summary. Content that no function here made gives
 * defined answers too: any mark but 0 is read as 1, except that `bandwidth_state` from 2 on says
 * not kept. What belongs to a mark is taken as it is; bazintroa_curve_summary says what follows
 * for a point that no feed would have kept.
 *
 * A feed returns a number and a summary: 0 and the summary with the part behind it, or a
 * refusal, 11 or 15, and the summary as it came. */

typedef struct {
    uint32_t read;        /* 1 where there are readings: the first and the last of them */
    uint32_t gain_found;  /* 1 where 0 dB is crossed: first at `gain` */
    uint32_t phase_found; /* 1 where -180 degrees are crossed: first at `phase` */
    uint32_t reserved;    /* 0; never read */
    bazintroa_reading first;
    bazintroa_reading last;
    double gain;
    double phase;
} bazintroa_bode_summary;

typedef struct {
    uint32_t number;
    uint32_t reserved; /* 0 */
    bazintroa_bode_summary summary;
} bazintroa_bode_fed;

bazintroa_bode_summary bazintroa_bode_empty(void);
bazintroa_bode_fed bazintroa_bode_feed(bazintroa_bode_summary s, const double *omega,
                                       size_t omega_len, const double *db, size_t db_len,
                                       const double *phase, size_t phase_len);
bazintroa_bode_summary bazintroa_bode_join(bazintroa_bode_summary s, bazintroa_bode_summary t);
uint32_t bazintroa_bode_gain_crossover(bazintroa_bode_summary s, double *out);
uint32_t bazintroa_bode_phase_crossover(bazintroa_bode_summary s, double *out);

/* One reading of a sweep of S and T, in dB. */
typedef struct {
    double omega;
    double s;
    double t;
} bazintroa_sensitivity_reading;

typedef struct {
    uint32_t read;
    uint32_t crossover_found; /* 1 where S and T cross: first at `crossover` */
    uint32_t bandwidth_state; /* 1: `bandwidth`; 0: none; 2, or any other: not kept */
    uint32_t reserved;        /* 0; never read */
    bazintroa_sensitivity_reading first;
    bazintroa_sensitivity_reading last;
    double crossover;
    double bandwidth;
} bazintroa_sensitivity_summary;

typedef struct {
    uint32_t number;
    uint32_t reserved; /* 0 */
    bazintroa_sensitivity_summary summary;
} bazintroa_sensitivity_fed;

bazintroa_sensitivity_summary bazintroa_sensitivity_empty(void);
bazintroa_sensitivity_fed bazintroa_sensitivity_feed(bazintroa_sensitivity_summary s,
                                                     const double *omega, size_t omega_len,
                                                     const double *s_db, size_t s_db_len,
                                                     const double *t_db, size_t t_db_len);
bazintroa_sensitivity_summary bazintroa_sensitivity_join(bazintroa_sensitivity_summary s,
                                                         bazintroa_sensitivity_summary t);
uint32_t bazintroa_sensitivity_summary_crossover(bazintroa_sensitivity_summary s, double *out);

/* 101 where a join is among the calls that made the summary. */
uint32_t bazintroa_sensitivity_summary_bandwidth(bazintroa_sensitivity_summary s, double *out);

/* The nearest point of a curve to (-1, 0), if one counts: a point that is fed and whose squared
 * distance is a NaN or infinite does not. A struct that a caller made up may hold such a point.
 * Joined behind another summary it does not count. Where it comes first, a NaN stays whatever
 * follows, and the closest approach is a NaN; an infinite one gives way to any point that counts,
 * and as long as none does the closest approach is 0. */
typedef struct {
    uint32_t found;
    uint32_t reserved; /* 0; never read */
    double re;
    double im;
} bazintroa_curve_summary;

typedef struct {
    uint32_t number;
    uint32_t reserved; /* 0 */
    bazintroa_curve_summary summary;
} bazintroa_curve_fed;

bazintroa_curve_summary bazintroa_curve_empty(void);
bazintroa_curve_fed bazintroa_curve_feed(bazintroa_curve_summary s, const double *re, size_t re_len,
                                         const double *im, size_t im_len);
bazintroa_curve_summary bazintroa_curve_join(bazintroa_curve_summary s, bazintroa_curve_summary t);
double bazintroa_curve_closest_approach(bazintroa_curve_summary s);

/* ---- the set-up panel ----
 * Readings as bytes, 24 each: omega, magnitude in dB and phase in degrees, every one an f64,
 * little-endian. Returns 0 with the first 8 bytes of the answer written, little-endian (a NaN
 * as 7FF8000000000000), 100 for none, or a refusal: 19 if the length is no multiple of 24, 15
 * above 4,096 readings, 14 if the answer has under 8 bytes. */

uint32_t bazintroa_panel_gain_crossover(const uint8_t *readings, size_t readings_len,
                                        uint8_t *answer, size_t answer_len);
uint32_t bazintroa_panel_phase_crossover(const uint8_t *readings, size_t readings_len,
                                         uint8_t *answer, size_t answer_len);

#ifdef __cplusplus
}
#endif

#endif

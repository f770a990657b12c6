/* The efficiency desk, called from a ship design program in C or C++.
 *
 * A ship is lent as `length` bytes from `block` on; a block of docs/RULES.md is 512. The answer is
 *   - one refusal by its number, that of the first rule broken; or
 *   - the two bounds of her attained index, EEXI or, of a new ship, EEDI: the exact index, that of every ship inside her ranges where
 *     she has any, is at least the lower bound and at most the upper one.
 * Bounds are counted in millionths of a gram of CO2 per tonne and nautical mile: 5170857 is 5.170857 g CO2/(t nm).
 * The same answer can be had in two steps: yagmurzol_speeds settles the speed, and yagmurzol_index takes it for the index, at any time
 * later.
 *
 * Every call promises, whatever the length and the bytes are, and crates/hull proves:
 *   - its answer is the desk's own to those bytes, and depends on nothing else;
 *   - it gives bounds or a refusal, never both and never neither;
 *   - with bounds the refusal is 0, a lower one is at most its upper one, an upper one is above 0, and all are below 2 to the 53rd;
 *   - with a refusal every bound is 0;
 *   - every length other than 512 is refusal 1; with length 0 `block` may be a null pointer;
 *   - a double is exactly the whole number that the whole bound is.
 * No call changes a byte, keeps anything until the next, or needs memory other than its stack. So several threads may call at once.
 * Asked of the caller is what C asks of any pointer and length: that so many bytes can be read there.
 *
 * The library is target/staticlib/libhull.a, made by `bin/prove hull_c`, for x86-64 programs and shared objects under Linux. */
#ifndef YAGMURZOL_H
#define YAGMURZOL_H

#include <stddef.h>
#include <stdint.h>

#ifdef __cplusplus
extern "C" {
#endif

/* How many bytes a block has. */
#define YAGMURZOL_BLOCK 512

/* The refusals. A number keeps its meaning; a later release may add one, so treat every number but 0 as a refusal. No call here writes,
   so none gives 17. */
enum yagmurzol_reason {
    YAGMURZOL_NONE = 0,             /* no refusal: there are bounds */
    YAGMURZOL_LENGTH = 1,           /* the block is not 512 bytes: the file broke off */
    YAGMURZOL_CHECK = 2,            /* the check sums differ: a byte was changed on the way */
    YAGMURZOL_LAYOUT = 3,           /* the layout is neither 1 nor 2 */
    YAGMURZOL_IMO_NUMBER = 4,       /* the IMO number, or its check digit */
    YAGMURZOL_SHIP_TYPE = 5,        /* the ship type is none of the eight, or a general cargo ship in layout 1 */
    YAGMURZOL_DEADWEIGHT = 6,       /* deadweight not 100 to 600,000 t */
    YAGMURZOL_GROSS_TONNAGE = 7,    /* gross tonnage: a vehicle carrier's not 100 to 400,000, or given for another type */
    YAGMURZOL_CARGO_VOLUME = 8,     /* cargo volume: a bulk carrier's not 100 to 1,000,000 m3, or given for another type */
    YAGMURZOL_ENGINES = 9,          /* engines not one to four, a rated power not 100 to 120,000 kW, or a limit that is neither
                                       empty nor 100 kW to the rated power */
    YAGMURZOL_CONSUMPTION = 10,     /* a fuel consumption that is empty or not 50 to 400 g/kWh, an unknown fuel or source, or
                                       figures where the source says there are none */
    YAGMURZOL_AUXILIARY_POWER = 11, /* auxiliary power: neither rule nor table, or a table figure that doesn't go with it */
    YAGMURZOL_ICE_CLASS = 12,       /* the ice class is neither 0 (none) nor 1 (IA Super or IA) nor 2 (IB or IC) */
    YAGMURZOL_SPEED = 13,           /* the speed method or the speed: not 5 to 60 knots, or a method that the type doesn't have; or
                                       speed bounds were handed in that aren't the ship's own */
    YAGMURZOL_RANGES = 14,          /* a low end above its high end, a range of speed or rated power without a declared speed, or
                                       a range of a general cargo ship's speed */
    YAGMURZOL_TRIAL = 15,           /* the trial's power or deadweight */
    YAGMURZOL_UNUSED = 16,          /* something stands where nothing may */
    YAGMURZOL_NO_BLOCK = 17,        /* only when writing: the file has no such block */
    YAGMURZOL_BUILD = 18,           /* lightweight, cranes or hull: a figure that the type doesn't have, one outside its limits,
                                       or a hull fuller than length x breadth x draught */
    YAGMURZOL_EDITION = 19          /* the edition is neither 0 (EEXI) nor 1 nor 2 (EEDI); or an EEDI with a power limiter, a
                                       consumption without a source, or a speed that isn't declared */
};

/* The two bounds as doubles, each exactly a whole number of millionths; two zeros with a refusal, and only then. */
struct yagmurzol_pair {
    double lower;
    double upper;
};

/* A whole answer: the refusal's number, one of enum yagmurzol_reason; the bounds as whole numbers; and as doubles. The bytes between
   the number and the lower bound mean nothing: compare answers part by part. */
struct yagmurzol_answer {
    uint8_t refusal;
    uint64_t lower;
    uint64_t upper;
    struct yagmurzol_pair pair;
};

/* All of it, from one reading of the block: the call for a program that asks often. Each of the next four calls works the whole answer
   out anew and gives one part of it. */
struct yagmurzol_answer yagmurzol_ask(const uint8_t *block, size_t length);

/* The refusal's number; 0 for none. */
uint8_t yagmurzol_refusal(const uint8_t *block, size_t length);

/* The lower bound, in millionths; 0 with a refusal. Whether there is one the refusal's number tells, or the upper bound. */
uint64_t yagmurzol_lower(const uint8_t *block, size_t length);

/* The upper bound, in millionths; 0 with a refusal, and only then. */
uint64_t yagmurzol_upper(const uint8_t *block, size_t length);

/* Both bounds as doubles, in millionths. */
struct yagmurzol_pair yagmurzol_doubles(const uint8_t *block, size_t length);

/* A speed's two bounds, in millionths of a knot: 14000000 is 14 knots. */
struct yagmurzol_knots {
    uint64_t lower;
    uint64_t upper;
};

/* The speed V_ref: the refusal's number; the bounds of the most favourable ship inside her ranges; and of the least favourable. Without a
   range of speed or rated power that is one ship, and both have the same bounds. With a refusal all four are 0. */
struct yagmurzol_speed_answer {
    uint8_t refusal;
    struct yagmurzol_knots most;
    struct yagmurzol_knots least;
};

/* The speed by itself. It is refused where yagmurzol_ask refuses, by the same number. Otherwise each pair encloses the exact speed of its
   own ship, and its upper bound exceeds the lower one by at most a millionth of the upper one and 2; a declared speed is both its bounds.
   With a declared speed every ship inside the ranges has a speed from least.lower to most.upper. */
struct yagmurzol_speed_answer yagmurzol_speeds(const uint8_t *block, size_t length);

/* The index from a block and the pairs that yagmurzol_speeds gave for it: what yagmurzol_ask answers. With any other pairs it is refusal
   13, after every refusal of the block itself: no index comes from another ship's speed. */
struct yagmurzol_answer yagmurzol_index(const uint8_t *block, size_t length, struct yagmurzol_knots most, struct yagmurzol_knots least);

#ifdef __cplusplus
}
#endif

#endif

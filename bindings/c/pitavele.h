/*
 * pitavele.h: the proved font subsetter, for C and all that speaks C.
 *
 * Link with libpitavele_c.a (`tools/archive` proves and builds it, and prints its place). It needs
 * nothing but the C library's memcpy, memmove and memset.
 */
#ifndef PITAVELE_H
#define PITAVELE_H

#include <stddef.h>
#include <stdint.h>

#ifdef __cplusplus
extern "C" {
#endif

/* Why a font was not cut: `refusal` below. docs/01-scope.md has the exact rules and their order. */
enum pitavele_refusal {
    PITAVELE_DONE = 0,
    PITAVELE_UNKNOWN_KIND = 1,         /* the bytes don't start as a font does */
    PITAVELE_NOT_TRUETYPE = 2,         /* a font, but without TrueType outlines */
    PITAVELE_MALFORMED = 3,            /* malformed, or an id or a face that it doesn't have */
    PITAVELE_NAME_OUTSIDE_STORAGE = 4, /* a kept name lies outside its storage */
    PITAVELE_OVERFLOW = 5,             /* a number doesn't fit its field */
    PITAVELE_OUTPUT_TOO_SHORT = 6,     /* `length` says how many bytes are needed */
    PITAVELE_TOO_MANY_GLYPHS = 7,      /* a 65,536th glyph is needed */
    PITAVELE_SCRATCH_TOO_SHORT = 8     /* see PITAVELE_MAX_SCRATCH */
};

/* Scratch that is enough for any font, in 16-bit numbers (half a megabyte). A font of n glyphs
 * needs 4 n of them; a font of b bytes never needs more than 2 b. */
#define PITAVELE_MAX_SCRATCH ((size_t)262144)

struct pitavele_answer {
    uint32_t refusal; /* 0, or why there is no font */
    uint32_t count;   /* glyphs of the new font; 0 with a refusal */
    uint64_t length;  /* bytes of the new font; with refusal 6 those needed, with others 0 */
};

/*
 * Cuts a font to glyph 0, the glyphs asked for and what their composites are made of.
 *
 * font, font_len        a TrueType font or a collection, as it stands in its file
 * index                 the face of a collection, from 0; ignored in a single font
 * ids, ids_len          the glyphs to keep: in any order, repeats allowed, may be none. They are
 *                       numbered in the order of their first appearance, glyph 0 first.
 * scratch, scratch_len  room to work in, counted in 16-bit numbers; need not be zeroed
 * out, out_len          room for the new font
 *
 * Success: the new font is the first `length` bytes of out, the rest of out is as it was. The first
 * `count` places of scratch are the roster: the old ids, in the order of the new ones.
 * Refusal: no byte of out is changed.
 * Either way, of the scratch only the first 4 numbers for each glyph of the font are touched; but
 * for the roster they are zero afterwards (or as they were, if the refusal came before they were
 * needed).
 *
 * Any bytes get an answer; the call always ends, keeps no pointer, allocates nothing, has no state,
 * and may run in many threads at once, each with its own scratch and out. What the caller owes:
 * each pointer is aligned as its type and has its length of memory behind it (with length 0 it may
 * be NULL); scratch and out overlap nothing else.
 */
struct pitavele_answer pitavele_subset(const uint8_t *font, size_t font_len, uint32_t index,
                                       const uint16_t *ids, size_t ids_len, uint16_t *scratch,
                                       size_t scratch_len, uint8_t *out, size_t out_len);

#ifdef __cplusplus
}
#endif

#endif

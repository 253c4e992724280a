/* Both tables read once, together, and added up, a sum for each: what reading them takes at least. speed/run compiles this file twice, by cc
 * and by the kit's clang, and each gives its functions a name of its own (COMPILER), since either may be the quicker; so may sums of 32 or of
 * 64 bits. */
#include <stddef.h>
#include <stdint.h>

#define NAMED(compiler, bits) stream_##compiler##_##bits
#define STREAM(compiler, bits) NAMED(compiler, bits)

uint64_t STREAM(COMPILER, 32)(const uint32_t *rates, const uint32_t *distortions, size_t cells) {
    uint32_t rate = 0, distortion = 0;
    for (size_t k = 0; k < cells; k++) {
        rate += rates[k];
        distortion += distortions[k];
    }
    return (uint32_t)(rate + distortion);
}

uint64_t STREAM(COMPILER, 64)(const uint32_t *rates, const uint32_t *distortions, size_t cells) {
    uint64_t rate = 0, distortion = 0;
    for (size_t k = 0; k < cells; k++) {
        rate += rates[k];
        distortion += distortions[k];
    }
    return rate + distortion;
}

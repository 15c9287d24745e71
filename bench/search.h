/* A node's search by hand, with AVX2, over the words of its record: what hand.c measures the index beside. docs/FORMATS.md has the
 * words of heads of each kind. */
#ifndef BENCH_SEARCH_H
#define BENCH_SEARCH_H

#include <immintrin.h>
#include <stddef.h>
#include <stdint.h>

static inline uint64_t load(const uint64_t *word)
{
    return __atomic_load_n(word, __ATOMIC_SEQ_CST);
}

/* Words of a node's record: that of its numbers, its columns, its sparse partial keys by the kind of its head, and its entries. */
enum { NUMBERS = 1, COLUMNS_FROM = 2, NARROW_ROWS_FROM = 4, MIDDLE_ROWS_FROM = 6, ROWS_FROM = 10, HEAD_END = 26 };

/* The kinds of heads, as the word of numbers has them. */
enum { WIDE = 0, NARROW = 1, MIDDLE = 2 };

/* Four words from this one on, side by side. */
static inline __m256i four(const uint64_t *word)
{
    uint64_t first = load(word), second = load(word + 1), third = load(word + 2), fourth = load(word + 3);
    return _mm256_set_epi64x((long long)fourth, (long long)third, (long long)second, (long long)first);
}

/* 32 bytes of 32 numbers of two bytes each, in their order. */
static inline __m256i narrowed(__m256i first, __m256i second)
{
    return _mm256_permute4x64_epi64(_mm256_packus_epi16(first, second), 0xd8);
}

/* Of 32 bytes of a key that are told by their numbers, those that are among the sixteen from this one on, and 0 for the others. */
static inline __m256i among(__m256i bytes, const uint8_t *sought, uint32_t first)
{
    __m256i block = _mm256_broadcastsi128_si256(_mm_loadu_si128((const __m128i *)(sought + first)));
    __m256i at = _mm256_sub_epi8(bytes, _mm256_set1_epi8((char)first));
    return _mm256_shuffle_epi8(block, _mm256_adds_epu8(at, _mm256_set1_epi8(0x70)));
}

/* The bits of a key at the columns of a node, that of the first one highest. A position is nine times a byte's number, and then 0 for whether
 * the key has the byte, or 1 to 8 for its bits, the highest first. Behind the key's bytes stand sixteen more, which say nothing. */
static inline uint32_t gathered(const uint64_t *node, uint64_t numbers, const uint8_t *sought, size_t length)
{
    const __m256i ninth = _mm256_set1_epi16(7282), most = _mm256_set1_epi16(255);
    const __m256i bits = _mm256_broadcastsi128_si256(_mm_setr_epi8(0, -128, 0, 64, 0, 32, 0, 16, 8, 0, 4, 0, 2, 0, 1, 0));
    const __m256i turned = _mm256_broadcastsi128_si256(_mm_setr_epi8(15, 14, 13, 12, 11, 10, 9, 8, 7, 6, 5, 4, 3, 2, 1, 0));
    __m256i some = four(node + COLUMNS_FROM), others = four(node + COLUMNS_FROM + 4), bytes, bit, key;
    uint32_t columns = numbers >> 8 & 255, at = columns ? columns - 1 : 0;
    uint32_t first = (uint16_t)_mm256_cvtsi256_si32(some) / 9, last = (load(node + COLUMNS_FROM + at / 4) >> 16 * (at % 4) & 65535) / 9;
    bytes = narrowed(_mm256_min_epu16(_mm256_mulhi_epu16(some, ninth), most), _mm256_min_epu16(_mm256_mulhi_epu16(others, ninth), most));
    bit = narrowed(_mm256_srli_epi16(_mm256_mullo_epi16(some, ninth), 12), _mm256_srli_epi16(_mm256_mullo_epi16(others, ninth), 12));
    key = among(bytes, sought, first);
    while (first + 16 <= last) {
        first += 16;
        key = _mm256_or_si256(key, among(bytes, sought, first));
    }
    key = _mm256_andnot_si256(key, _mm256_shuffle_epi8(bits, bit));
    key = _mm256_or_si256(key, _mm256_subs_epu8(bytes, _mm256_set1_epi8((char)(length - 1))));
    key = _mm256_permute4x64_epi64(_mm256_shuffle_epi8(key, turned), 0x4e);
    return (uint32_t)_mm256_movemask_epi8(_mm256_cmpeq_epi8(key, _mm256_setzero_si256()));
}

/* Which of eight sparse partial keys have no bit but these. */
static inline __m256i within(const uint64_t *word, __m256i others)
{
    return _mm256_cmpeq_epi32(_mm256_and_si256(four(word), others), _mm256_setzero_si256());
}

/* The bits of a key at near columns, that of the first one as bit 15: the masks of bytes that are told by their numbers, from the first
 * one's on. A lane without a column has a mask without bits. */
static inline uint32_t gathered_near(__m128i at, __m128i masks, uint64_t numbers, const uint8_t *sought)
{
    __m128i window = _mm_loadu_si128((const __m128i *)(sought + (numbers >> 32 & 255)));
    __m128i bits = _mm_and_si128(_mm_shuffle_epi8(window, at), masks);
    return ~(uint32_t)_mm_movemask_epi8(_mm_cmpeq_epi8(bits, _mm_setzero_si128())) & 65535;
}

/* The last of these places that a node has, whose numbers these are. */
static inline uint64_t last_of(uint32_t places, uint64_t numbers)
{
    return 31 - (uint64_t)__builtin_clz(places & (uint32_t)((1ull << (numbers & 255)) - 1));
}

static inline uint64_t search_narrow(const uint64_t *node, uint64_t numbers, const uint8_t *sought)
{
    __m128i at = _mm_set_epi64x((long long)load(node + COLUMNS_FROM), 0);
    __m128i masks = _mm_set_epi64x((long long)load(node + COLUMNS_FROM + 1), 0);
    __m256i others = _mm256_set1_epi8((char)~(gathered_near(at, masks, numbers, sought) >> 8));
    __m256i lacking = _mm256_and_si256(four(node + NARROW_ROWS_FROM), others);
    return last_of((uint32_t)_mm256_movemask_epi8(_mm256_cmpeq_epi8(lacking, _mm256_setzero_si256())), numbers);
}

static inline uint64_t search_middle(const uint64_t *node, uint64_t numbers, const uint8_t *sought)
{
    __m128i at = _mm_set_epi64x((long long)load(node + COLUMNS_FROM + 1), (long long)load(node + COLUMNS_FROM));
    __m128i masks = _mm_set_epi64x((long long)load(node + COLUMNS_FROM + 3), (long long)load(node + COLUMNS_FROM + 2));
    __m256i others = _mm256_set1_epi16((short)~gathered_near(at, masks, numbers, sought)), none = _mm256_setzero_si256();
    __m256i some = _mm256_cmpeq_epi16(_mm256_and_si256(four(node + MIDDLE_ROWS_FROM), others), none);
    __m256i rest = _mm256_cmpeq_epi16(_mm256_and_si256(four(node + MIDDLE_ROWS_FROM + 4), others), none);
    return last_of((uint32_t)_mm256_movemask_epi8(_mm256_permute4x64_epi64(_mm256_packs_epi16(some, rest), 0xd8)), numbers);
}

static inline uint64_t search_wide(const uint64_t *node, uint64_t numbers, const uint8_t *sought, size_t length)
{
    __m256i others = _mm256_set1_epi32((int)~gathered(node, numbers, sought, length));
    __m256i some = _mm256_packs_epi32(within(node + ROWS_FROM, others), within(node + ROWS_FROM + 4, others));
    __m256i rest = _mm256_packs_epi32(within(node + ROWS_FROM + 8, others), within(node + ROWS_FROM + 12, others));
    some = _mm256_packs_epi16(_mm256_permute4x64_epi64(some, 0xd8), _mm256_permute4x64_epi64(rest, 0xd8));
    return 31 - (uint64_t)__builtin_clz((uint32_t)_mm256_movemask_epi8(_mm256_permute4x64_epi64(some, 0xd8)));
}

/* The place to which the bits of a key of 1 to 240 bytes lead in a node. Behind the key's bytes stand 32 of 0. */
static inline uint64_t search(const uint64_t *node, const uint8_t *sought, size_t length)
{
    uint64_t numbers = load(node + NUMBERS);
    switch (numbers >> 40) {
    case NARROW:
        return search_narrow(node, numbers, sought);
    case MIDDLE:
        return search_middle(node, numbers, sought);
    default:
        return search_wide(node, numbers, sought, length);
    }
}

#endif

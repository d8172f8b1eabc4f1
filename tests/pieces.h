/* The listing in pieces, for tests/outside.c: whatever the cuts, the outcome is that of the whole listing call, and each refusal
 * comes at the call that brings its last byte. */

typedef uint16_t PieceCall(uint8_t *, const uint8_t *, size_t);
typedef uint16_t EndCall(uint8_t *, uint8_t *, size_t, size_t *);

/* The archive's own entries, whose names the header gives to the functions before them. */
#undef balehasp_piece
#undef balehasp_end
static PieceCall *const piece_entry = balehasp_piece;
static EndCall *const end_entry = balehasp_end;
#define balehasp_piece balehasp_piece_checked
#define balehasp_end balehasp_end_checked

#define NEVER SIZE_MAX

static Guarded states, piece_in, end_out;
static uint8_t *held; /* the state, in `states` */
static unsigned calls_made;

/* After how many bytes of a listing the call that brings them is refused, and with what. */
static size_t deciding(const uint8_t *in, size_t length, uint16_t *refusal)
{
    *refusal = 0;
    if (length < 2)
        return NEVER;
    size_t functions = number_at(in, 0), count = 2 + 2 * functions;
    if (functions < 1 || functions > 10) {
        *refusal = BALEHASP_REFUSED_LIMITS;
        return 2;
    }
    if (length < count)
        return NEVER;
    for (size_t at = 2; at < count; at += 2)
        if (number_at(in, at) < 1 || number_at(in, at) > FUNCTIONS)
            *refusal = BALEHASP_REFUSED_FUNCTION;
    if (*refusal)
        return count;
    if (length < count + 2)
        return NEVER;
    size_t patterns = number_at(in, count), end = count + 2 + 2 * patterns;
    if (patterns > 1024) {
        *refusal = BALEHASP_REFUSED_LIMITS;
        return count + 2;
    }
    if (length <= end)
        return NEVER;
    *refusal = BALEHASP_REFUSED_AFTER;
    return end + 1;
}

/* The state that is to be there: these bytes so far and no refusal, or a refusal and no bytes. */
static void model_state(uint8_t *at, const uint8_t *bytes, size_t length, uint16_t refusal)
{
    memset(at, 0, BALEHASP_PIECES);
    if (length)
        memcpy(at, bytes, length);
    put(at, BALEHASP_LONGEST_LISTING, (uint16_t)length);
    put(at, BALEHASP_LONGEST_LISTING + 2, refusal);
}

/* A state's place against one of the pages, with these bytes in it. */
static void hold(const uint8_t *bytes, size_t length, uint16_t refusal)
{
    held = place(&states, BALEHASP_PIECES, below(2));
    model_state(held, bytes, length, refusal);
}

static uint8_t *state_after(void) { return states.before + (held - states.bytes); }

/* One piece call, after which the state is as the copy in `states` says. */
static void one_piece(const uint8_t *bytes, size_t length, uint16_t wants)
{
    uint8_t *piece = place(&piece_in, length, below(2));
    if (length)
        memcpy(piece, bytes, length);
    keep(&piece_in);
    PieceCall *call = below(2) ? piece_entry : balehasp_piece;
    uint16_t said = call(held, call == piece_entry || length || below(2) ? piece : NULL, length);
    expect(said == wants, "a piece's refusal", said, wants);
    expect_same(&states, "the state after a piece", length, wants);
    expect_same(&piece_in, "a piece is changed", length, wants);
    calls_made++;
}

/* One end call that writes the first `wrote` bytes of the model's output. */
static void one_end(size_t room, uint16_t wants, size_t wrote)
{
    uint8_t *output = place(&end_out, room, below(2));
    keep(&end_out);
    memcpy(end_out.before + (output - end_out.bytes), model_out, wrote);
    EndCall *call = below(2) ? end_entry : balehasp_end;
    size_t written = (size_t)noise(), *told = call == end_entry ? &written : perhaps(&written);
    uint16_t said = call(held, call == end_entry || room || below(2) ? output : NULL, room, told);
    expect(said == wants, "an end's refusal", said, wants);
    expect(!told || written == wrote, "how many bytes an end writes", written, wrote);
    expect_same(&states, "the state after an end", room, wants);
    expect_same(&end_out, "an end's output", room, wants);
    calls_made++;
}

/* The same refusal again, from either call. */
static void repeated(uint16_t refusal)
{
    keep(&states);
    if (below(2))
        one_piece(piece_in.bytes + 512, (size_t)below(8), refusal);
    else
        one_end((size_t)below(64), refusal, 0);
}

/* A listing in these pieces, by how many bytes each has; the rest is the last. Every call is held to the model, and the end to the
 * whole listing call. */
static uint16_t one_cutting(const uint8_t *bytes, size_t length, const size_t *sizes, size_t pieces, size_t room)
{
    uint16_t early;
    size_t decided = deciding(bytes, length, &early), came = 0;
    hold(NULL, 0, 0);
    for (size_t i = 0; i <= pieces; i++) {
        size_t size = i < pieces ? smaller(sizes[i], length - came) : length - came;
        uint16_t wants = came + size >= decided ? early : 0;
        keep(&states);
        model_state(state_after(), bytes, wants ? 0 : came + size, wants);
        one_piece(bytes + came, size, wants);
        came += size;
    }
    size_t wrote, written;
    uint16_t whole = model_listing(bytes, length, room, model_out, &wrote);
    static uint8_t whole_out[32768];
    expect(balehasp_listing(bytes, length, whole_out, room, &written) == whole && written == wrote
               && memcmp(whole_out, model_out, wrote) == 0, "the whole listing call", whole, wrote);
    keep(&states);
    model_state(state_after(), NULL, 0, whole);
    one_end(room, whole, wrote);
    if (whole && !below(4))
        repeated(whole);
    return whole;
}

/* Whether some calls from a fresh state produce this one. */
static bool model_produced(const uint8_t *at)
{
    uint16_t count = number_at(at, BALEHASP_LONGEST_LISTING), refusal = number_at(at, BALEHASP_LONGEST_LISTING + 2), early;
    if (count > BALEHASP_LONGEST_LISTING)
        return false;
    for (size_t i = count; i < BALEHASP_LONGEST_LISTING; i++)
        if (at[i])
            return false;
    if (refusal)
        return count == 0
            && (refusal == BALEHASP_REFUSED_FUNCTION || refusal == BALEHASP_REFUSED_OUTPUT || refusal == BALEHASP_REFUSED_CUT
                || refusal == BALEHASP_REFUSED_LIMITS || refusal == BALEHASP_REFUSED_AFTER);
    return deciding(at, count, &early) == NEVER;
}

enum { COUNTED, REFUSAL, AFTER_THEM, AMONG_THEM, BOTH, ALL_NOISE, FORGERIES };

/* A state that calls produce, changed in one way. */
static unsigned forge(uint8_t *bytes)
{
    size_t length = (size_t)below(some_listing(bytes) + 1);
    hold(bytes, length, 0);
    unsigned way = (unsigned)below(FORGERIES);
    switch (way) {
    case COUNTED: put(held, BALEHASP_LONGEST_LISTING, (uint16_t)(below(2) ? below(BALEHASP_LONGEST_LISTING + 4) : noise())); break;
    case REFUSAL: hold(NULL, 0, (uint16_t)(below(2) ? below(16) : noise())); break;
    case AFTER_THEM: held[length + below(BALEHASP_LONGEST_LISTING + 1 - length)] = (uint8_t)noise(); break;
    case AMONG_THEM: held[below(length + 1)] ^= (uint8_t)(1 << below(8)); break;
    case BOTH: put(held, BALEHASP_LONGEST_LISTING + 2, (uint16_t)(1 + below(12))); break;
    case ALL_NOISE:
        for (size_t i = 0; i < BALEHASP_PIECES; i++)
            held[i] = (uint8_t)noise();
        break;
    }
    return way;
}

/* States that no calls produce are refused with 12 and stay; of those that some calls produce none is. */
static void forged_states(uint8_t *bytes)
{
    unsigned forged[FORGERIES] = {0}, refused = 0, taken = 0;
    while (refused < 1000) {
        unsigned way = forge(bytes);
        keep(&states);
        if (model_produced(held)) {
            uint16_t refusal = number_at(held, BALEHASP_LONGEST_LISTING + 2);
            one_piece(NULL, 0, refusal);
            taken++;
        } else {
            one_piece(bytes, (size_t)below(64), BALEHASP_REFUSED_STATE);
            one_end(below(2) ? (size_t)below(64) : BALEHASP_LONGEST_ANSWERED, BALEHASP_REFUSED_STATE, 0);
            forged[way]++;
            refused++;
        }
    }
    for (unsigned way = 0; way < FORGERIES; way++)
        expect(forged[way] > 0, "no state was forged in this way", way, 0);
    printf("%u forged states refused with 12 and as they were; %u that some calls produce taken by a piece of no bytes\n", refused, taken);
}

static const struct {
    size_t length;
    uint8_t bytes[16];
} short_listings[] = {
    {0, {0}}, {1, {1}}, {1, {0}}, {1, {11}}, {2, {0, 0}}, {2, {11, 0}}, {2, {1, 1}}, {4, {1, 0, 0, 0}}, {4, {1, 0, 11, 0}},
    {4, {1, 0, 2, 1}}, {6, {1, 0, 2, 0, 0, 0}}, {6, {1, 0, 0, 0, 0, 0}}, {7, {1, 0, 2, 0, 0, 0, 0}}, {6, {1, 0, 2, 0, 1, 4}},
    {6, {1, 0, 2, 0, 0, 4}}, {8, {1, 0, 2, 0, 1, 0, 0, 64}}, {9, {1, 0, 2, 0, 1, 0, 0, 64, 0}}, {8, {1, 0, 0, 0, 1, 4, 0, 64}},
    {8, {2, 0, 2, 0, 0, 0, 0, 0}}, {8, {2, 0, 0, 0, 2, 0, 1, 4}}, {10, {1, 0, 2, 0, 2, 0, 0, 64, 0, 128}},
    {11, {1, 0, 2, 0, 2, 0, 0, 64, 0, 128, 7}}, {12, {2, 0, 1, 0, 10, 0, 2, 0, 1, 2, 3, 4}}, {13, {2, 0, 1, 0, 10, 0, 2, 0, 1, 2, 3, 4, 5}},
    {14, {3, 0, 3, 0, 3, 0, 11, 0, 1, 0, 1, 2, 3, 4}}, {14, {2, 0, 9, 0, 8, 0, 3, 0, 1, 2, 3, 4, 5, 6}}, {16, {4, 0, 1, 0, 2, 0, 3, 0, 4, 0, 2, 0, 1, 2, 3, 4}},
};

/* Every one of the short listings, cut at every pair of places, with an output that is long enough and with one that may not be. */
static void every_pair_of_cuts(void)
{
    unsigned cuttings = 0, listings_tried = sizeof short_listings / sizeof *short_listings;
    for (unsigned k = 0; k < listings_tried; k++) {
        size_t length = short_listings[k].length;
        for (size_t first = 0; first <= length; first++)
            for (size_t second = first; second <= length; second++) {
                const size_t sizes[2] = {first, second - first};
                one_cutting(short_listings[k].bytes, length, sizes, 2, 64);
                one_cutting(short_listings[k].bytes, length, sizes, 2, (size_t)below(40));
                cuttings += 2;
            }
    }
    printf("%u short listings cut at every pair of places, %u cuttings: each call as the model's, the end as the whole listing call\n", listings_tried, cuttings);
}

/* The longest listing byte by byte, and in pieces that go beyond it. */
static void longest_in_pieces(uint8_t *bytes)
{
    static size_t ones[BALEHASP_LONGEST_LISTING + 8];
    size_t length = listing_of(bytes, 10, 1024);
    for (size_t i = 0; i < sizeof ones / sizeof *ones; i++)
        ones[i] = 1;
    expect(one_cutting(bytes, length, ones, length, BALEHASP_LONGEST_ANSWERED) == 0, "the longest listing byte by byte", length, 0);
    expect(one_cutting(bytes, length, ones, length, BALEHASP_LONGEST_ANSWERED - 1) == BALEHASP_REFUSED_OUTPUT, "the longest listing in one byte less", length, 0);
    for (size_t more = 1; more < 8; more++) {
        bytes[length + more - 1] = (uint8_t)noise();
        expect(one_cutting(bytes, length + more, ones, length + more, BALEHASP_LONGEST_ANSWERED) == BALEHASP_REFUSED_AFTER, "bytes after the longest listing", more, 0);
    }
    for (size_t first = 0; first <= length + 7; first += 1 + (size_t)below(5)) {
        const size_t sizes[1] = {first};
        expect(one_cutting(bytes, length + 7, sizes, 1, BALEHASP_LONGEST_ANSWERED) == BALEHASP_REFUSED_AFTER, "the longest listing and more, cut once", first, 0);
    }
}

static void misused_pieces(void)
{
    uint8_t room[BALEHASP_PIECES + 64] = {0}, before[sizeof room], output[64] = {0};
    size_t written = 7;
    memcpy(before, room, sizeof room);
    expect(balehasp_piece(NULL, output, 1) == BALEHASP_MISUSED && balehasp_piece(room, NULL, 1) == BALEHASP_MISUSED
               && balehasp_piece(room, output, SIZE_MAX) == BALEHASP_MISUSED && balehasp_piece(room, room + BALEHASP_PIECES - 1, 1) == BALEHASP_MISUSED
               && balehasp_piece(room + 1, room, 2) == BALEHASP_MISUSED && balehasp_piece((uint8_t *)UINTPTR_MAX, output, 1) == BALEHASP_MISUSED,
           "a piece that cannot be taken", 0, 0);
    expect(balehasp_end(NULL, output, 1, &written) == BALEHASP_MISUSED && written == 0, "an end without a state", written, 0);
    written = 7;
    expect(balehasp_end(room, NULL, 1, &written) == BALEHASP_MISUSED && written == 0, "an end without an output", written, 0);
    written = 7;
    expect(balehasp_end(room, room + BALEHASP_PIECES - 1, 8, &written) == BALEHASP_MISUSED && written == 0, "an output in the state", written, 0);
    expect(balehasp_end(room, output, 8, (size_t *)(void *)(room + BALEHASP_PIECES - 1)) == BALEHASP_MISUSED, "what was written told in the state", 0, 0);
    expect(memcmp(room, before, sizeof room) == 0, "a call that cannot be made changes the state", 0, 0);
    expect(balehasp_piece(room, room + BALEHASP_PIECES, 1) == 0, "a piece right after the state", 0, 0);
    puts("pieces and ends that cannot be made: 10, nothing changed");
}

/* How a random listing is cut: a byte at a time, at random places, in packets of one size, or with pieces of no bytes between. */
enum { BYTES, ANYWHERE, PACKETS, EMPTY_ONES, CUTTINGS };

static size_t some_cuts(size_t *sizes, size_t most, size_t length, unsigned *way)
{
    *way = !below(32) ? BYTES : (unsigned)(1 + below(3));
    size_t packet = 1 + (size_t)below(24), n = 0;
    for (size_t left = length; left && n < most; n++) {
        size_t size = *way == BYTES ? 1 : *way == PACKETS ? packet : *way == EMPTY_ONES && below(2) ? 0 : (size_t)below(left + 1);
        sizes[n] = smaller(size, left);
        left -= sizes[n];
    }
    return n;
}

static void pieces(void)
{
    static uint8_t bytes[4096];
    static size_t sizes[4096];
    states = guarded(4096);
    piece_in = guarded(4096);
    end_out = guarded(32768);
    every_pair_of_cuts();
    longest_in_pieces(bytes);
    misused_pieces();
    forged_states(bytes);
    unsigned refusals[7] = {0}, ways[CUTTINGS] = {0}, way;
    calls_made = 0;
    for (unsigned i = 0; i < rounds; i++) {
        size_t length = listing_of(bytes, (size_t)(1 + below(10)), (size_t)(below(200) ? below(12) : below(1025))), wanted;
        if (below(2))
            length = damage(bytes, length);
        model_listing(bytes, length, SIZE_MAX, model_out, &wanted);
        size_t room = below(6) ? wanted + (size_t)below(9) : (size_t)below(wanted + 1);
        size_t n = some_cuts(sizes, length > 256 ? 24 : sizeof sizes / sizeof *sizes, length, &way);
        ways[way]++;
        refusals[one_cutting(bytes, length, sizes, n, room)]++;
    }
    printf("%u random cuttings of sound and damaged listings, %u calls: byte by byte %u, anywhere %u, in packets %u, with pieces of no bytes %u; "
           "each call as the model's, the end as the whole listing call; refused by 1, 2, 4, 5, 6: %u, %u, %u, %u, %u\n",
           rounds, calls_made, ways[BYTES], ways[ANYWHERE], ways[PACKETS], ways[EMPTY_ONES], refusals[1], refusals[2], refusals[4], refusals[5], refusals[6]);
}

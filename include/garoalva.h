/*
 * Garoalva: a network card's T10-DIF signature offload, in software.
 *
 * The library moves blocks of data between scattered memory and a wire buffer. On the way it adds, checks, strips or
 * copies the eight-byte protection field after each block: guard (2 bytes), application tag (2) and reference tag (4),
 * each with its high byte first.
 *
 *     garoalva_fresh        makes a key
 *     garoalva_configure    sets a key's layout, domains and masks
 *     garoalva_send         moves data from memory to the wire
 *     garoalva_receive      moves data from the wire to memory
 *     garoalva_open         begins a receive by packets, which may end anywhere: it turns a key into a session
 *     garoalva_packet       receives one packet
 *     garoalva_finish       ends the receive once all bytes have arrived: it turns the session back into a key
 *     garoalva_abandon      ends the receive early
 *     garoalva_check        returns the first error found, and clears it
 *     garoalva_answer_text, garoalva_error_text, garoalva_version    words for answers and errors, and the version
 *
 * Words. A stream is what one side of a transfer holds: the data, with a field after each block if that side is signed.
 * The input stream is in memory for send and on the wire for receive; the output stream is the other one. A layout says
 * where the bytes of the memory stream lie in memory; each run of memory that it names is a piece.
 *
 * Answers. Each call is defined for all arguments. Its answer is 0 if it was done, else a number that says why it was
 * refused: see enum garoalva_answer, whose prefix the comments below leave out. A refused call changes nothing: it
 * writes no byte that it was lent, and the key or session stays as it was. A bad block is no refusal: the transfer goes
 * on, the first error is recorded in the key, and garoalva_check returns it.
 *
 * Keys and sessions are plain structs, passed and returned by value. Their fields belong to the library. A struct that
 * is not a key or session of this version is refused (1000, 1001). One that looks valid but came from elsewhere is used
 * as it stands. No struct, whatever it holds, makes a call touch a byte that it was not lent.
 *
 * Old copies. Keys and sessions are values, and no call can tell an old copy from the current one:
 *   - An old copy of a key knows nothing of an error that a later transfer found. After a damaged receive, a caller who
 *     drops the key that garoalva_receive returned, and checks the old one, is told "no error".
 *   - An old copy of a session is still a session, even after garoalva_finish or garoalva_abandon. Packets that are
 *     passed to it again are accepted, and written again at the places where that old session stood.
 * So assign the struct that a call returns over the old one at once, as in key = result.key. The compiler warns of a
 * result that is dropped as a whole, but not of an old copy that is used.
 *
 * The caller's duties. No proof can see across the C API, so these are left to the caller:
 *   - Each pointer points to as many bytes as the length beside it says. It may be null where that length is 0.
 *   - The bytes that a call writes overlap no other bytes lent to the same call.
 *   - While a call runs, nobody else writes the bytes lent to it, and nobody else reads the bytes that it writes.
 *   - From open to finish or abandon, the same memory is lent with every packet, and between packets nobody else writes
 *     it. Each call gets the session that open, or the call before, returned.
 *   - The caller looks at each answer. After answer 0 it goes on with the key or session that the call returned, after
 *     any other answer with the one that it passed. It may copy these structs, and changes nothing in them.
 * The calls keep no pointer, allocate nothing and have no state of their own, so any thread may make any of them.
 */
#ifndef GAROALVA_H
#define GAROALVA_H

#include <stddef.h>
#include <stdint.h>

/* Marks the calls, so that the compiler warns if a result is dropped, and the key or session in it is lost. */
#if defined(__cplusplus)
#if __cplusplus >= 201703L
#define GAROALVA_NODISCARD [[nodiscard]]
#endif
#elif defined(__STDC_VERSION__) && __STDC_VERSION__ > 201710L && defined(__has_c_attribute)
#if __has_c_attribute(nodiscard)
#define GAROALVA_NODISCARD [[nodiscard]]
#endif
#endif
#if !defined(GAROALVA_NODISCARD) && defined(__GNUC__)
#define GAROALVA_NODISCARD __attribute__((warn_unused_result))
#elif !defined(GAROALVA_NODISCARD)
#define GAROALVA_NODISCARD
#endif

#ifdef __cplusplus
extern "C" {
#endif

/*
 * The version of this header: 0.N.P, where N is the struct version and P counts changes of rules that keep N.
 * garoalva_version returns the library's.
 */
#define GAROALVA_VERSION "0.4.0"
#define GAROALVA_STRUCT_VERSION 4 /* the lowest byte of each seal, and part of symbols, so digits alone */

/*
 * The symbol of a function that takes or returns a struct is its name, _v and the struct version. So a program that was
 * built for other structs does not link with this library. C and C++ code uses the name alone; these macros add the
 * rest. A program that calls dlsym asks for the whole symbol.
 */
#define GAROALVA_JOIN_TOKENS(name, version) name##_v##version
#define GAROALVA_JOIN(name, version) GAROALVA_JOIN_TOKENS(name, version)
#define GAROALVA_SYMBOL(name) GAROALVA_JOIN(name, GAROALVA_STRUCT_VERSION)
#define garoalva_fresh GAROALVA_SYMBOL(garoalva_fresh)
#define garoalva_configure GAROALVA_SYMBOL(garoalva_configure)
#define garoalva_send GAROALVA_SYMBOL(garoalva_send)
#define garoalva_receive GAROALVA_SYMBOL(garoalva_receive)
#define garoalva_check GAROALVA_SYMBOL(garoalva_check)
#define garoalva_open GAROALVA_SYMBOL(garoalva_open)
#define garoalva_packet GAROALVA_SYMBOL(garoalva_packet)
#define garoalva_finish GAROALVA_SYMBOL(garoalva_finish)
#define garoalva_abandon GAROALVA_SYMBOL(garoalva_abandon)
#define garoalva_error_text GAROALVA_SYMBOL(garoalva_error_text)

#define GAROALVA_FIELD_SIZE 8u          /* bytes of the protection field after each block */
#define GAROALVA_BLOCK_SIZE_MIN 8u      /* data bytes of a block, at least; they are a multiple of 8 */
#define GAROALVA_BLOCK_SIZE_MAX 4160u   /* data bytes of a block, at most */
#define GAROALVA_SECTOR_SIZE 512u       /* data bytes that a reference tag of GAROALVA_EDITION_2 counts as one */
#define GAROALVA_MEMORY_LIMIT 16777216u /* bytes of memory, at most */
#define GAROALVA_ENTRIES 16u            /* entries of a layout, at most */
#define GAROALVA_PIECES 1024u           /* pieces of a layout (its entries times its repeat), at most */
#define GAROALVA_ERROR_TEXT_SIZE 192u   /* bytes that hold any text of garoalva_error_text and its final 0 */

/* garoalva_domain.kind */
enum {
    GAROALVA_KIND_NONE = 0,   /* the stream holds the data alone */
    GAROALVA_KIND_T10_DIF = 1 /* the side is signed: a field follows each block */
};

/* garoalva_domain.guard_type; a guard covers a block's data alone */
enum {
    GAROALVA_GUARD_CRC = 0,     /* polynomial 0x8BB7, high bit first, starting from the seed */
    GAROALVA_GUARD_CHECKSUM = 1 /* ones' complement sum of the seed and the data's 16-bit words, inverted */
};

/* garoalva_domain.flags: any of these, but not both escapes. An escape takes effect in the input domain alone. */
enum {
    GAROALVA_REMAP = 1,              /* the reference tag counts up with each block, as the domain's edition says */
    GAROALVA_ESCAPE_APPLICATION = 2, /* a block is not checked if the application tag found is 0xFFFF */
    GAROALVA_ESCAPE_BOTH = 4         /* the same, but only if the reference tag found is 0xFFFFFFFF too */
};

/*
 * garoalva_domain.edition: by how much the reference tag grows from one block to the next under GAROALVA_REMAP. It is
 * counted modulo 2^32, so 0 follows 0xFFFFFFFF. A signed domain needs an edition even without that flag; 0 is no
 * edition. With edition 2, block_size must be a multiple of GAROALVA_SECTOR_SIZE.
 */
enum {
    GAROALVA_EDITION_1 = 1, /* by 1: the tag counts blocks */
    GAROALVA_EDITION_2 = 2  /* by block_size / GAROALVA_SECTOR_SIZE: the tag counts sectors */
};

/* garoalva_signature.attribute_flags */
enum { GAROALVA_COPY_MASK_GIVEN = 1 /* copy_mask says which bytes are copied */ };

/*
 * check_mask, copy_mask and garoalva_error.differing have a bit for each byte of a field: bit 7 for the first byte, bit
 * 0 for the last.
 */
enum { GAROALVA_MASK_GUARD = 0xC0, GAROALVA_MASK_APPLICATION = 0x30, GAROALVA_MASK_REFERENCE = 0x0F };

/* garoalva_error.type */
enum {
    GAROALVA_ERROR_NONE = 0,
    GAROALVA_ERROR_GUARD = 1,
    GAROALVA_ERROR_REFERENCE = 2,
    GAROALVA_ERROR_APPLICATION = 3
};

/* The answers: why a call was refused, or 0. garoalva_answer_text has a sentence for each. */
enum garoalva_answer {
    GAROALVA_ANSWER_DONE = 0,
    GAROALVA_ANSWER_BAD_DOMAIN = 1,       /* kind, block size, guard type, seed, flags or attribute flags not valid */
    GAROALVA_ANSWER_ESCAPE_TAG = 2,       /* an escape flag in a signed domain with application tag 0xFFFF */
    GAROALVA_ANSWER_COPY_MASK = 3,        /* a copy mask given, but not both sides signed with one block size */
    GAROALVA_ANSWER_BLOCK_SIZES = 4,      /* both sides signed, with different block sizes */
    GAROALVA_ANSWER_MALFORMED_LAYOUT = 5, /* no entries or too many, repeat 0, a count 0, or too many pieces */
    GAROALVA_ANSWER_OUTSIDE_MEMORY = 6,   /* a piece ends beyond the memory */
    GAROALVA_ANSWER_OVERLAP = 7,          /* two pieces share a byte */
    GAROALVA_ANSWER_MEMORY_LENGTH = 8,    /* memory above the limit, or not of the configured length */
    GAROALVA_ANSWER_PARTIAL_BLOCK = 9,    /* data length not a multiple of the block size of a signed side */
    GAROALVA_ANSWER_PAST_LAYOUT = 10,     /* the memory stream ends beyond the layout */
    GAROALVA_ANSWER_SHORT_WIRE = 11,      /* the wire buffer is shorter than the wire stream */
    GAROALVA_ANSWER_LONG_PACKET = 12,     /* the packet is longer than the wire bytes still to come */
    GAROALVA_ANSWER_BYTES_TO_COME = 13,   /* finish, but not all wire bytes have arrived */
    GAROALVA_ANSWER_NOT_CONFIGURED = 14,  /* the key was never configured */
    GAROALVA_ANSWER_EDITION = 20,         /* signed: edition not 1 or 2, or 2 and block size not a multiple of 512 */

    /* The struct is not a key of this version. Where a result holds no key, its key member is such a struct: after an
     * accepted open, a refused finish and a refused abandon. */
    GAROALVA_ANSWER_NOT_A_KEY = 1000,

    /* The struct is not a session of this version. Where a result holds no session, its session member is such a
     * struct: after a refused open and an accepted finish. An old copy of a session that has ended is not refused. */
    GAROALVA_ANSWER_NOT_A_SESSION = 1001
};

/* One side of a transfer. If kind is GAROALVA_KIND_NONE, the other numbers are ignored. */
typedef struct {
    uint32_t kind;            /* GAROALVA_KIND_.. */
    uint32_t block_size;      /* data bytes: a multiple of 8 from GAROALVA_BLOCK_SIZE_MIN to GAROALVA_BLOCK_SIZE_MAX */
    uint32_t guard_type;      /* GAROALVA_GUARD_.. */
    uint32_t reference_tag;   /* of the first block of a transfer, whatever the transfer's offset */
    uint16_t seed;            /* what a guard starts from: 0 or 0xFFFF */
    uint16_t application_tag; /* of every block */
    uint32_t flags;           /* GAROALVA_REMAP, GAROALVA_ESCAPE_.. */
    uint32_t edition;         /* GAROALVA_EDITION_.. */
} garoalva_domain;

/* An entry of a layout. Its repeat r is a piece of `count` bytes of memory from start + r * (count + skip) on. */
typedef struct {
    uint64_t start;
    uint32_t count;
    uint32_t skip;
} garoalva_entry;

/* Where the memory stream lies: in repeat 0 of each used entry, in order, then in repeat 1 of each, and so on. */
typedef struct {
    garoalva_entry entries[GAROALVA_ENTRIES];
    uint32_t used;   /* entries that count: the first ones */
    uint32_t repeat; /* 1 for a plain list of pieces */
} garoalva_layout;

/*
 * What the two streams hold, and which bytes of a field are checked and copied.
 *
 * An input field is bad if one of its bytes in check_mask differs from what the input domain's rule computes. The field
 * of an escaped block (GAROALVA_ESCAPE_..) is not checked. The tags that escape it are read whole, whatever check_mask
 * is.
 *
 * With GAROALVA_COPY_MASK_GIVEN, the bytes of an output field in copy_mask are copied from the input field, and the
 * others are generated by the output domain's rule. Without it copy_mask is ignored: if both sides are signed, the
 * guard is copied if guard type and seed agree, the application tag if it agrees, and the reference tag if it, the
 * remap flag and the edition agree. The output is the same whether an input field is good or bad.
 */
typedef struct {
    garoalva_domain memory;
    garoalva_domain wire;
    uint32_t attribute_flags; /* 0 or GAROALVA_COPY_MASK_GIVEN */
    uint8_t check_mask;
    uint8_t copy_mask;
    uint16_t spare; /* ignored */
} garoalva_signature;

/* What a key is configured with. */
typedef struct {
    garoalva_layout layout;
    garoalva_signature signature;
} garoalva_configuration;

/*
 * The first error of a key or session: the first bad block, and in it the first bad one of guard, application tag and
 * reference tag, in this order. All five numbers are 0 if there is no error.
 *
 * `differing` says which bytes of that guard or tag differ and were in the check_mask of the transfer that found the
 * error. Its bits are among those of GAROALVA_MASK_GUARD, GAROALVA_MASK_APPLICATION or GAROALVA_MASK_REFERENCE, as
 * `type` says. In an error that a call found, at least one is set. A byte that was not checked has no bit, even if it
 * differs. Nor has a byte of another tag.
 */
typedef struct {
    uint32_t type;      /* GAROALVA_ERROR_.. */
    uint32_t actual;    /* the whole guard or tag that the input domain's rule computes for the block */
    uint32_t expected;  /* the whole guard or tag that was found in the field after the block */
    uint32_t offset;    /* where the block's data begins in the input stream */
    uint32_t differing; /* the checked bytes of the guard or tag that differ: bits of GAROALVA_MASK_.. */
} garoalva_error;

/* A key. Its fields belong to the library. */
typedef struct {
    uint64_t seal; /* says that this is a key, and of which struct version */
    uint64_t memory_length;
    garoalva_layout layout;
    garoalva_signature signature;
    uint32_t configured;
    garoalva_error error;
} garoalva_key;

/* How far a session is in one of its streams: the block in progress, the bytes of it that are done, and its guard. */
typedef struct {
    uint64_t index;
    uint64_t at;
    uint32_t odd;
    uint16_t guard;
    uint16_t spare;
} garoalva_side;

/* A session: a receive by packets that is in progress. Its fields belong to the library. */
typedef struct {
    uint64_t seal; /* says that this is a session, and of which struct version */
    garoalva_key key;
    uint64_t offset;
    uint64_t data_length;
    garoalva_side input;
    garoalva_side output;
    garoalva_error error;
    uint8_t held[GAROALVA_FIELD_SIZE];
    uint32_t spare;
} garoalva_session;

/* The results. Where a comment says "if done", the answer is GAROALVA_ANSWER_DONE; any other answer is a refusal. */
typedef struct {
    garoalva_key key; /* go on with this one */
    uint64_t answer;
} garoalva_configure_result;

typedef struct {
    garoalva_key key; /* go on with this one */
    uint64_t answer;
    uint64_t taken;   /* bytes of the input stream, with fields; 0 if refused */
    uint64_t written; /* bytes of the output stream, with fields; 0 if refused */
} garoalva_transfer_result;

typedef struct {
    garoalva_key key; /* go on with this one */
    uint64_t answer;
    garoalva_error error; /* all 0 if there was none, or if refused */
    uint32_t spare;       /* 0 */
} garoalva_check_result;

typedef struct {
    garoalva_key key;         /* if refused, the key that was passed; if done, not a key: go on with the session */
    garoalva_session session; /* if done; otherwise it is not a session */
    uint64_t answer;
} garoalva_open_result;

typedef struct {
    garoalva_session session; /* go on with this one */
    uint64_t answer;
    uint64_t taken;   /* wire bytes accepted since open; 0 if refused */
    uint64_t written; /* bytes of the memory stream written since open; 0 if refused */
} garoalva_packet_result;

typedef struct {
    garoalva_key key;         /* if done; otherwise it is not a key */
    garoalva_session session; /* if refused, the session that was passed; otherwise it is not a session */
    uint64_t answer;
} garoalva_finish_result;

typedef struct {
    garoalva_key key; /* if done; otherwise it is not a key */
    uint64_t answer;
} garoalva_abandon_result;

/*
 * garoalva_fresh - make a key.
 *
 * Returns a key that was never configured and holds no error.
 */
GAROALVA_NODISCARD
garoalva_key garoalva_fresh(void);

/*
 * garoalva_configure - set a key's configuration.
 * key            the key to change
 * memory         the memory that transfers will be lent; it is not read here, and only its length counts
 * memory_length  at most GAROALVA_MEMORY_LIMIT
 * configuration  layout, domains and masks
 *
 * Returns the key with this configuration, and answer 0. An error that is recorded in the key stays there.
 *
 * Refused with the first that applies of NOT_A_KEY (1000), MEMORY_LENGTH (8), BAD_DOMAIN (1), EDITION (20), ESCAPE_TAG
 * (2), COPY_MASK (3), BLOCK_SIZES (4), MALFORMED_LAYOUT (5), OUTSIDE_MEMORY (6) and OVERLAP (7). The key is then
 * unchanged.
 */
GAROALVA_NODISCARD
garoalva_configure_result garoalva_configure(garoalva_key key, const uint8_t *memory, size_t memory_length,
                                             garoalva_configuration configuration);

/*
 * garoalva_send - move data from memory to the wire.
 * key            a configured key
 * memory         holds the input stream, where the key's layout says
 * memory_length  the length that the key was configured with
 * wire           buffer for the output stream; bytes after the stream are not written
 * wire_length    at least the length of the wire stream
 * offset         byte of the layout at which the memory stream begins
 * data_length    bytes of data, without fields; whole blocks if a side is signed; may be 0
 *
 * Returns the key, answer 0, and the bytes taken from memory and written to the wire. If the key held no error and a
 * block is bad, the returned key holds the first error: see garoalva_check.
 *
 * Refused with the first that applies of NOT_A_KEY (1000), NOT_CONFIGURED (14), MEMORY_LENGTH (8), PARTIAL_BLOCK (9),
 * PAST_LAYOUT (10) and SHORT_WIRE (11). The key is then unchanged, and nothing is written.
 */
GAROALVA_NODISCARD
garoalva_transfer_result garoalva_send(garoalva_key key, const uint8_t *memory, size_t memory_length, uint8_t *wire,
                                       size_t wire_length, uint64_t offset, uint64_t data_length);

/*
 * garoalva_receive - move data from the wire to memory.
 * key            a configured key
 * memory         is written where the key's layout says, and nowhere else
 * memory_length  the length that the key was configured with
 * wire           holds the input stream; bytes after the stream are not read
 * wire_length    at least the length of the wire stream
 * offset         byte of the layout at which the memory stream begins
 * data_length    bytes of data, without fields; whole blocks if a side is signed; may be 0
 *
 * Returns the key, answer 0, and the bytes taken from the wire and written to memory. If the key held no error and a
 * block is bad, the returned key holds the first error: see garoalva_check.
 *
 * Refused with the first that applies of NOT_A_KEY (1000), NOT_CONFIGURED (14), MEMORY_LENGTH (8), PARTIAL_BLOCK (9),
 * PAST_LAYOUT (10) and SHORT_WIRE (11). The key is then unchanged, and nothing is written.
 */
GAROALVA_NODISCARD
garoalva_transfer_result garoalva_receive(garoalva_key key, uint8_t *memory, size_t memory_length, const uint8_t *wire,
                                          size_t wire_length, uint64_t offset, uint64_t data_length);

/*
 * garoalva_check - return the first error since the last check.
 * key            the key to check; it need not be configured
 *
 * Returns the key without the error, answer 0, and the error, which is all 0 if there was none. garoalva_error_text has
 * a sentence for it.
 *
 * Refused with NOT_A_KEY (1000). The key is then unchanged.
 */
GAROALVA_NODISCARD
garoalva_check_result garoalva_check(garoalva_key key);

/*
 * garoalva_open - begin a receive by packets.
 * key            a configured key
 * memory         the memory that packets will be lent; it is not read here, and only its length counts
 * memory_length  the length that the key was configured with
 * offset         byte of the layout at which the memory stream begins
 * data_length    bytes of data, without fields; whole blocks if a side is signed; may be 0
 *
 * Returns a session that holds the key, and answer 0. The result's key is then not a key: each call refuses it (1000).
 * garoalva_finish or garoalva_abandon returns the key to go on with.
 *
 * Refused with the first that applies of NOT_A_KEY (1000), NOT_CONFIGURED (14), MEMORY_LENGTH (8), PARTIAL_BLOCK (9)
 * and PAST_LAYOUT (10). The key is then returned unchanged, and the result's session is not a session.
 *
 * A whole receive by packets. Each packet's result is the argument of the next call, which saves a copy of the session.
 * If the receive can't be finished, garoalva_abandon returns the key with the errors found so far. The key is valid
 * again after either call:
 *
 *     garoalva_open_result open = garoalva_open(key, memory, memory_length, 0, data_length);
 *     key = open.key;
 *     if (open.answer != GAROALVA_ANSWER_DONE)
 *         return open.answer;
 *     garoalva_packet_result packet = {.session = open.session};
 *     while (packet.answer == GAROALVA_ANSWER_DONE && next_packet(&bytes, &bytes_length))
 *         packet = garoalva_packet(packet.session, memory, memory_length, bytes, bytes_length);
 *     garoalva_finish_result finish = garoalva_finish(packet.session);
 *     if (finish.answer == GAROALVA_ANSWER_DONE)
 *         key = finish.key;
 *     else
 *         key = garoalva_abandon(packet.session).key;
 *     garoalva_check_result check = garoalva_check(key);
 *     key = check.key;
 */
GAROALVA_NODISCARD
garoalva_open_result garoalva_open(garoalva_key key, const uint8_t *memory, size_t memory_length, uint64_t offset,
                                   uint64_t data_length);

/*
 * garoalva_packet - receive the next bytes of the wire stream.
 * session        the session that open, or the call before, returned
 * memory         the memory of this receive, as open, or the call before, left it
 * memory_length  the length that the key was configured with
 * bytes          the packet, which may begin and end anywhere in the wire stream
 * bytes_length   at most the wire bytes still to come; may be 0
 *
 * Returns the session, answer 0, and the totals since open. Data is written to memory at once. When a block is whole,
 * with its field if the wire is signed, it is checked, and if memory is signed its field is written there.
 *
 * Refused with the first that applies of NOT_A_SESSION (1001), MEMORY_LENGTH (8) and LONG_PACKET (12). The session is
 * then unchanged, and nothing is written. After 8 and 12 the receive can go on.
 */
GAROALVA_NODISCARD
garoalva_packet_result garoalva_packet(garoalva_session session, uint8_t *memory, size_t memory_length,
                                       const uint8_t *bytes, size_t bytes_length);

/*
 * garoalva_finish - end a receive by packets, once all wire bytes have arrived.
 * session        the session that open, or the call before, returned
 *
 * Returns the key that was passed to open, and answer 0. If that key held no error and a block is bad, the returned key
 * holds the first error. Memory and key are then as one garoalva_receive of the same bytes would have left them.
 *
 * Refused with the first that applies of NOT_A_SESSION (1001) and BYTES_TO_COME (13). The session is then returned
 * unchanged, and after 13 the receive can go on. The result's key is not a key.
 */
GAROALVA_NODISCARD
garoalva_finish_result garoalva_finish(garoalva_session session);

/*
 * garoalva_abandon - end a receive by packets, whatever has arrived.
 * session        the session that open, or the call before, returned
 *
 * Returns the key that was passed to open, and answer 0. If that key held no error and a block that arrived whole is
 * bad, the returned key holds the first error. What has arrived stays in memory.
 *
 * Refused with NOT_A_SESSION (1001). The result's key is then not a key.
 */
GAROALVA_NODISCARD
garoalva_abandon_result garoalva_abandon(garoalva_session session);

/*
 * garoalva_version - return the version of the library.
 *
 * Returns a constant text. It equals GAROALVA_VERSION if this header is the library's own.
 */
const char *garoalva_version(void);

/*
 * garoalva_answer_text - say in words what an answer means.
 * answer         the answer of any call
 *
 * Returns a constant text, with no full stop and no line end; "unknown answer" for any other number.
 */
const char *garoalva_answer_text(uint64_t answer);

/*
 * garoalva_error_text - say in words what an error is.
 * error          the error that garoalva_check returned
 * text           buffer for the text; may be null if size is 0
 * size           bytes of the buffer; GAROALVA_ERROR_TEXT_SIZE is always enough
 *
 * Writes the text and a final 0, at most size bytes in all, as snprintf does: a text that is too long is cut. It says
 * where the block is, what was found, what the rule computes, and which checked bytes of the guard or tag differ. There
 * the bytes are counted within the guard or tag, from 0, high byte first. The text of type 0 is "no error", and that of
 * a type above 3 "unknown error type".
 *
 * Returns the length of the whole text without its final 0. The text was cut if size is not greater.
 */
size_t garoalva_error_text(garoalva_error error, char *text, size_t size);

#ifdef __cplusplus
}
#define GAROALVA_ASSERT static_assert
#else
#define GAROALVA_ASSERT _Static_assert
#endif

/* The structs as the library has them: the size of each, and the offset of each field. */
#define GAROALVA_SIZE(type, size) GAROALVA_ASSERT(sizeof(garoalva_##type) == (size), #type)
#define GAROALVA_AT(type, field, at) GAROALVA_ASSERT(offsetof(garoalva_##type, field) == (at), #type "." #field)

GAROALVA_SIZE(domain, 28);
GAROALVA_AT(domain, kind, 0);
GAROALVA_AT(domain, block_size, 4);
GAROALVA_AT(domain, guard_type, 8);
GAROALVA_AT(domain, reference_tag, 12);
GAROALVA_AT(domain, seed, 16);
GAROALVA_AT(domain, application_tag, 18);
GAROALVA_AT(domain, flags, 20);
GAROALVA_AT(domain, edition, 24);

GAROALVA_SIZE(entry, 16);
GAROALVA_AT(entry, start, 0);
GAROALVA_AT(entry, count, 8);
GAROALVA_AT(entry, skip, 12);

GAROALVA_SIZE(layout, 264);
GAROALVA_AT(layout, entries, 0);
GAROALVA_AT(layout, used, 256);
GAROALVA_AT(layout, repeat, 260);

GAROALVA_SIZE(signature, 64);
GAROALVA_AT(signature, memory, 0);
GAROALVA_AT(signature, wire, 28);
GAROALVA_AT(signature, attribute_flags, 56);
GAROALVA_AT(signature, check_mask, 60);
GAROALVA_AT(signature, copy_mask, 61);
GAROALVA_AT(signature, spare, 62);

GAROALVA_SIZE(configuration, 328);
GAROALVA_AT(configuration, layout, 0);
GAROALVA_AT(configuration, signature, 264);

GAROALVA_SIZE(error, 20);
GAROALVA_AT(error, type, 0);
GAROALVA_AT(error, actual, 4);
GAROALVA_AT(error, expected, 8);
GAROALVA_AT(error, offset, 12);
GAROALVA_AT(error, differing, 16);

GAROALVA_SIZE(key, 368);
GAROALVA_AT(key, seal, 0);
GAROALVA_AT(key, memory_length, 8);
GAROALVA_AT(key, layout, 16);
GAROALVA_AT(key, signature, 280);
GAROALVA_AT(key, configured, 344);
GAROALVA_AT(key, error, 348);

GAROALVA_SIZE(side, 24);
GAROALVA_AT(side, index, 0);
GAROALVA_AT(side, at, 8);
GAROALVA_AT(side, odd, 16);
GAROALVA_AT(side, guard, 20);
GAROALVA_AT(side, spare, 22);

GAROALVA_SIZE(session, 472);
GAROALVA_AT(session, seal, 0);
GAROALVA_AT(session, key, 8);
GAROALVA_AT(session, offset, 376);
GAROALVA_AT(session, data_length, 384);
GAROALVA_AT(session, input, 392);
GAROALVA_AT(session, output, 416);
GAROALVA_AT(session, error, 440);
GAROALVA_AT(session, held, 460);
GAROALVA_AT(session, spare, 468);

GAROALVA_SIZE(configure_result, 376);
GAROALVA_AT(configure_result, key, 0);
GAROALVA_AT(configure_result, answer, 368);

GAROALVA_SIZE(transfer_result, 392);
GAROALVA_AT(transfer_result, key, 0);
GAROALVA_AT(transfer_result, answer, 368);
GAROALVA_AT(transfer_result, taken, 376);
GAROALVA_AT(transfer_result, written, 384);

GAROALVA_SIZE(check_result, 400);
GAROALVA_AT(check_result, key, 0);
GAROALVA_AT(check_result, answer, 368);
GAROALVA_AT(check_result, error, 376);
GAROALVA_AT(check_result, spare, 396);

GAROALVA_SIZE(open_result, 848);
GAROALVA_AT(open_result, key, 0);
GAROALVA_AT(open_result, session, 368);
GAROALVA_AT(open_result, answer, 840);

GAROALVA_SIZE(packet_result, 496);
GAROALVA_AT(packet_result, session, 0);
GAROALVA_AT(packet_result, answer, 472);
GAROALVA_AT(packet_result, taken, 480);
GAROALVA_AT(packet_result, written, 488);

GAROALVA_SIZE(finish_result, 848);
GAROALVA_AT(finish_result, key, 0);
GAROALVA_AT(finish_result, session, 368);
GAROALVA_AT(finish_result, answer, 840);

GAROALVA_SIZE(abandon_result, 376);
GAROALVA_AT(abandon_result, key, 0);
GAROALVA_AT(abandon_result, answer, 368);

#undef GAROALVA_AT
#undef GAROALVA_SIZE
#undef GAROALVA_ASSERT
#undef GAROALVA_NODISCARD

#endif

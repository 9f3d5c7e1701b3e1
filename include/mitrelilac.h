/*
 * Mitrelilac reads CodeView symbol streams, the records of a Windows PDB's module and symbol streams, says which scopes a record
 * belongs to, reads the line programs of inlined code, and squeezes the fillers out of streams. This header is its manual; whole
 * programs are examples/scopes.c, examples/lines.c and examples/squeeze.c.
 *
 *     cc -Iinclude program.c target/staticlib/libmitrelilac.a        x86-64 Linux; nothing more than the C library
 *
 *
 * STREAMS AND RECORDS
 *
 * A stream is what the PDB holds as symbols: of a module's stream its first SymByteSize bytes, of which four are a signature, so
 * that reading starts at position 4; or the PDB's symbol record stream, read from position 0.
 *
 * A position counts bytes from the beginning of the stream. A record in a stream is a length (u16, little-endian) and so many bytes,
 * the first two of which are its kind. The position of its length is the record's index; links between records (parent, end, next)
 * are indexes. What the functions call `record` is the bytes behind the length: stream + out[2], out[3] of them, in the words of
 * mitrelilac_step.
 *
 * Fillers (kinds S_ALIGN 0x0402 and S_SKIP 0x0007) are passed over wherever records are read.
 *
 * A scope is opened by an opener (procedures, blocks, thunks, inline sites, ..) and closed by a closer (S_END 0x0006, S_INLINESITE_END
 * 0x114e, S_PROC_ID_END 0x114f). An opener's parent field is the index of the opener around it, 0 if there is none, its end field the
 * index of its closer.
 *
 * S_LPROC32_ID (0x1146) is an opener to mitrelilac_check, mitrelilac_walk, mitrelilac_jump, mitrelilac_climb, mitrelilac_squeeze
 * and mitrelilac_preview, but not to mitrelilac_kind, which answers as pdb does: who keeps a stack of scopes by mitrelilac_kind pushes at
 * 0x1146 too. S_LPROCMIPS_ID (0x1148) and S_LPROCIA64_ID (0x114a) are openers to none of them.
 *
 *
 * RULES OF EVERY CALL
 *
 * - It returns 0 and writes its answer to the first words of `out`; or it refuses, returns one of the numbers below, from 1 on, and
 *   writes two words: out[0] is the position of the refusal, out[1] its detail, each 0 where the number says nothing of it.
 *   Every other word of `out` stays as it was.
 * - The bytes may come from anywhere and hold anything: each call ends, with the answer or the refusal that is described here.
 * - It only reads the lent bytes, writes nothing but the words just named and, in mitrelilac_squeeze, the buffer, keeps no pointer,
 *   allocates nothing, and has no state: any number of threads may call.
 * - The caller lends `length` bytes that do not change during the call, and as many words as the function's `out` has, at an
 *   address of a uint64_t and apart from the bytes; to mitrelilac_squeeze also a buffer of `room` bytes, apart from both. A pointer is
 *   never null. Where there are no bytes, pass any address that is not null, "" for one, with the length 0.
 * - A part of the lent bytes, as a name, is given as two words: where it starts, counted from the first of those bytes, and its
 *   length. No zero ends it. Its bytes are as the stream has them, in whatever encoding.
 * - Numbers of fewer bits are words with zeros above; negative ones are extended with their sign: (int64_t)out[n] is the value.
 *   Yes and no are 1 and 0.
 */
#ifndef MITRELILAC_H
#define MITRELILAC_H

#include <stddef.h>
#include <stdint.h>

/* In C a compiler may warn of an array that is too short; C++ has no way to say it. */
#ifdef __cplusplus
#define MITRELILAC_WORDS(n) n
extern "C" {
#else
#define MITRELILAC_WORDS(n) static n
#endif

/*
 * What a call returns. The position (out[0]) and the detail (out[1]) are 0 but where a line here or at the function says more. The
 * squeeze and its preview check first, and refuse as the check does.
 */
enum mitrelilac_number {
    MITRELILAC_ANSWERED = 0,
    MITRELILAC_UNEXPECTED_EOF = 1,            /* the bytes run out; from a step, with its position */
    MITRELILAC_SYMBOL_TOO_SHORT = 2,          /* a length below 2, with the position behind it */
    MITRELILAC_UNIMPLEMENTED_KIND = 3,        /* no layout is known for this kind; the detail is the kind */
    MITRELILAC_UNEXPECTED_NUMERIC_PREFIX = 4, /* the value of a constant begins with an unknown prefix, which is the detail */
    MITRELILAC_TOO_LONG = 5,                  /* a stream above 4,294,967,295 bytes, or a record above 65,535 */
    MITRELILAC_UNREADABLE_OPENER = 6,         /* check: an opener that decode refuses, at its index */
    MITRELILAC_OPENER_AT_0 = 7,               /* check: an opener at 0, the position that means none */
    MITRELILAC_WRONG_PARENT = 8,              /* check: a parent field other than the scope around the opener, at its index */
    MITRELILAC_TOO_DEEP = 9,                  /* more than 64 scopes in one another; from check, at the opener's index */
    MITRELILAC_NOTHING_OPEN = 10,             /* a closer with nothing open; from check, at its index */
    MITRELILAC_WRONG_END = 11,                /* check: a closer elsewhere than its opener's end field says, at its index */
    MITRELILAC_LEFT_OPEN = 12,                /* check: the stream ends in a scope, at the innermost one's index */
    MITRELILAC_UNUSABLE_LINK = 13,            /* jump, climb: a link that can't be followed */
    MITRELILAC_NOTHING_THERE = 14,            /* no record begins there, or it is no opener, no register list, or has no such entry */
    MITRELILAC_INVALID_COMPRESSED_ANNOTATION = 15, /* annotation: a number is cut off or malformed, at its first byte */
    MITRELILAC_UNKNOWN_BINARY_ANNOTATION = 16, /* annotation: no instruction has this code, which is the detail */
    MITRELILAC_WRONG_NEXT = 17,               /* squeeze, preview: a next field that is neither 0 nor a record's index, at its opener's index */
    MITRELILAC_NO_ROOM = 18                   /* squeeze: the buffer is too short */
};

/*
 * The first record at a position or behind it. Start at the position where the stream's records start (4 in a module's stream), and
 * go on at the next position that each step answers.
 *
 *     out[0]  1: a record    0: the end of the stream
 *     out[1]  its index      the position of the end
 *     out[2]  where its bytes start (out[1] + 2)
 *     out[3]  how many there are, at least 2
 *     out[4]  the next position
 *
 * At the end only out[0] and out[1] are written. A position past the end is taken as the end.
 *
 * Refuses, with the position where reading stopped:
 *     1  one byte is left where a length is due: the position of that byte;
 *        or fewer bytes follow than the length says: the position behind the length
 *     2  the length is below 2: the position behind it
 *     5  the stream is above 4,294,967,295 bytes: 0
 */
uint32_t mitrelilac_step(const uint8_t *stream, size_t length, size_t position, uint64_t out[MITRELILAC_WORDS(5)]);

/*
 * The kind of a record, and what it does to scopes. Never refuses; below 2 bytes the kind is 0.
 *
 *     out[0]  the kind
 *     out[1]  1 if it is an opener to pdb, to which 0x1146 is none (see above)
 *     out[2]  1 if it is a closer
 */
uint32_t mitrelilac_kind(const uint8_t *record, size_t length, uint64_t out[MITRELILAC_WORDS(3)]);

/*
 * The name of a record.
 *
 *     out[0]  1 if it has a name, which may be empty; else 0
 *     out[1]  where the name starts in the record; 0 if there is none
 *     out[2]  its length; 0 if there is none
 *
 * Closers, trampolines, build infos, inline sites and separated code have none. Neither, by this function, have registers, register
 * lists and compile flags, nor procedure and data references of kinds below 0x1100.
 *
 * Refuses what mitrelilac_decode refuses, and alike.
 */
uint32_t mitrelilac_name(const uint8_t *record, size_t length, uint64_t out[MITRELILAC_WORDS(3)]);

/*
 * An entry of a register list (class MITRELILAC_REGISTER_LIST), counted by k from 0 on.
 *
 *     out[0]  the register
 *     out[1]  where its name starts in the record
 *     out[2]  the length of its name
 *
 * Refuses what mitrelilac_decode refuses, and alike; and 14 if the record is no register list or k is not below its count.
 */
uint32_t mitrelilac_register_entry(const uint8_t *record, size_t length, size_t k, uint64_t out[MITRELILAC_WORDS(3)]);

/*
 * The nesting check: reads the stream from `start` to its end and looks whether every scope is closed where its opener's end field
 * says and lies in the scope that its parent field names. On a stream that passes, with the same start, mitrelilac_walk and
 * mitrelilac_jump give the same scopes at every position where a record begins, and both refuse with 14 at every other; and at an
 * opener mitrelilac_climb gives these scopes in opposite order. This is proved, of the numbers that the calls return and the words that
 * they write (crates/mitrelilac/specs/Exported.antt).
 *
 *     out[0]  records read, fillers not counted
 *     out[1]  their bytes, lengths included
 *     out[2]  fillers passed over
 *     out[3]  their bytes, lengths included; out[1] + out[3] is all from `start` on
 *     out[4]  openers
 *     out[5]  the deepest nesting
 *
 * Refuses what a step refuses, with its position. At a record, with the record's index:
 *     6, 7, 8, 9    for an opener, the first that holds
 *     10, 11        for a closer
 * And at the end of the stream 12, with the index of the innermost scope that is still open.
 */
uint32_t mitrelilac_check(const uint8_t *stream, size_t length, size_t start, uint64_t out[MITRELILAC_WORDS(6)]);

/*
 * The scopes that enclose the record at position i, by reading every record from `start` on. A closer lies in the scope that it
 * closes; an opener does not lie in the scope that it opens.
 *
 *     out[0]        records read, the one at i included
 *     out[1]        how many scopes there are, at most 64
 *     out[2 .. 65]  their indexes, the outermost first, 0 behind the last
 *
 * Refuses what a step refuses, with its position; and
 *     9   if more than 64 scopes are open before i
 *     10  if a closer before i has nothing open
 *     14  if no record begins at i
 */
uint32_t mitrelilac_walk(const uint8_t *stream, size_t length, size_t start, size_t i, uint64_t out[MITRELILAC_WORDS(66)]);

/*
 * The same as mitrelilac_walk, where a scope that ends before i is not read but jumped over by its opener's end field. On a stream
 * that passed mitrelilac_check from the same start the scopes are the same, and no more records are read; `out` is as there, with
 * the closers that were jumped to among the records read.
 *
 * Refuses what a step refuses, with its position; and of the records that it reads before i
 *     9   if more than 64 scopes are open, those that were jumped over not counted
 *     13  if an opener can't be decoded, or its end field is below the position behind it; if i is above the end field and no closer
 *         begins there; or if a closer was not jumped to
 *     14  if no record begins at i
 */
uint32_t mitrelilac_jump(const uint8_t *stream, size_t length, size_t start, size_t i, uint64_t out[MITRELILAC_WORDS(66)]);

/*
 * The scopes that enclose the opener at position i, by following parent fields: one step at each opener.
 *
 *     out[0]        links followed
 *     out[1]        how many scopes there are, at most 64
 *     out[2 .. 65]  their indexes, the innermost first, 0 behind the last
 *
 * Refuses what a step at i refuses, with its position; and
 *     9   at a 65th link
 *     13  if the opener can't be decoded, or a parent field is not below the index of its opener, or no opener that can be decoded
 *         begins there
 *     14  if no record begins at i, or it is no opener
 */
uint32_t mitrelilac_climb(const uint8_t *stream, size_t length, size_t i, uint64_t out[MITRELILAC_WORDS(66)]);

/*
 * The squeeze: writes the stream into a buffer, without the fillers, of which incremental links leave many. The first record from
 * `start` on keeps its position, and what lies before it is copied, fillers too, so that no opener gets to 0. Behind it each record
 * begins where the one before it ends, and with the last one the squeezed stream ends. Records are copied but for the links of
 * openers, which name the new positions: parent and end, and of procedures and thunks next; 0 stays. `start` may be past the end. A
 * stream with no record from there on is copied whole.
 *
 *     out[0]  the length of the squeezed stream, never above `length`
 *
 * The first out[0] bytes of the buffer are then the squeezed stream. Those behind them stay as they were, and after a refusal all do.
 * `length` bytes of room always suffice. Buffer and stream may not overlap.
 *
 * From the same start the squeezed stream passes mitrelilac_check, and steps yield the same records in order, but for their moved
 * links, and pass over no filler behind the first one; squeezed again it stays as it is. This is proved
 * (crates/squeezing/specs/Squeezes.antt).
 *
 * It checks first, and refuses as mitrelilac_check does. After that
 *     17  a procedure's or a thunk's next is not 0, and no record from `start` on has that index: the opener's index; of several
 *         the first in the stream
 *     18  the squeezed stream is longer than `room`: 0
 *
 * A call reads the stream a few times, and up to twice more for each next that names an earlier record than the next before it;
 * docs/PERFORMANCE.md has what many of them cost.
 */
uint32_t mitrelilac_squeeze(const uint8_t *stream, size_t length, size_t start, uint8_t *buffer, size_t room, uint64_t out[MITRELILAC_WORDS(2)]);

/*
 * The preview of a squeeze: what mitrelilac_squeeze gives of the same stream from the same `start`, without a buffer, and where the
 * record at `i` is then. With it a buffer can be lent that is just long enough (`step`, `gain` and `out` are words):
 *
 *     mitrelilac_step(stream, length, start, step);                      the first record is at step[1], if step[0] is 1
 *     mitrelilac_preview(stream, length, start, step[1], gain);          gain[0] bytes, gain[1] fillers fewer
 *     buffer = malloc(gain[0]);
 *     mitrelilac_squeeze(stream, length, start, buffer, gain[0], out);   out[0] is gain[0]
 *
 *     out[0]  the length that the squeeze writes
 *     out[1]  how many fillers it drops: those behind the first record
 *     out[2]  the index of the record in the squeezed stream
 *
 * The two go together, and this is proved (crates/squeezing/specs/Foretells.antt): where the preview returns 0, the squeeze does with
 * out[0] bytes of room or more, and answers that length; with less it returns 18. The record at `i` is the one at out[2] of the squeezed
 * stream, but for its moved links. The stream has out[1] fillers more than the squeezed one, as mitrelilac_check counts them from
 * `start`. Where the preview refuses with another number than 14, the squeeze refuses alike, words and all, whatever the room.
 *
 * Refuses as mitrelilac_squeeze, but never with 18. After that
 *     14  no record from `start` on has the index `i`: 0
 *
 * A call reads what a squeeze reads before it writes, and then the records up to the one at `i`.
 */
uint32_t mitrelilac_preview(const uint8_t *stream, size_t length, size_t start, size_t i, uint64_t out[MITRELILAC_WORDS(3)]);

/* The classes of records: what mitrelilac_decode makes of which kinds. */
enum mitrelilac_class {
    MITRELILAC_SCOPE_END = 1,             /* S_END */
    MITRELILAC_OBJECT_NAME = 2,           /* S_OBJNAME, _ST */
    MITRELILAC_REGISTER = 3,              /* S_REGISTER, _ST */
    MITRELILAC_CONSTANT = 4,              /* S_CONSTANT, _ST, S_MANCONSTANT */
    MITRELILAC_USER_TYPE = 5,             /* S_UDT, _ST, S_COBOLUDT, _ST */
    MITRELILAC_REGISTER_LIST = 6,         /* S_MANYREG, _ST, S_MANYREG2, _ST */
    MITRELILAC_DATA = 7,                  /* S_LDATA32, _ST, S_GDATA32, _ST, S_LMANDATA, _ST, S_GMANDATA, _ST */
    MITRELILAC_PUBLIC = 8,                /* S_PUB32, _ST */
    MITRELILAC_PROCEDURE = 9,             /* S_LPROC32, _ST, _ID, _DPC, _DPC_ID, S_GPROC32, _ST, _ID */
    MITRELILAC_THREAD_STORAGE = 10,       /* S_LTHREAD32, _ST, S_GTHREAD32, _ST */
    MITRELILAC_COMPILE_FLAGS = 11,        /* S_COMPILE2, _ST, S_COMPILE3 */
    MITRELILAC_NAMESPACE = 12,            /* S_UNAMESPACE, _ST */
    MITRELILAC_PROCEDURE_REFERENCE = 13,  /* S_PROCREF, _ST, S_LPROCREF, _ST */
    MITRELILAC_DATA_REFERENCE = 14,       /* S_DATAREF, _ST */
    MITRELILAC_ANNOTATION_REFERENCE = 15, /* S_ANNOTATIONREF */
    MITRELILAC_TRAMPOLINE = 16,           /* S_TRAMPOLINE */
    MITRELILAC_EXPORT = 17,               /* S_EXPORT */
    MITRELILAC_LOCAL = 18,                /* S_LOCAL */
    MITRELILAC_BUILD_INFO = 19,           /* S_BUILDINFO */
    MITRELILAC_INLINE_SITE = 20,          /* S_INLINESITE, S_INLINESITE2 */
    MITRELILAC_INLINE_SITE_END = 21,      /* S_INLINESITE_END */
    MITRELILAC_PROCEDURE_END = 22,        /* S_PROC_ID_END */
    MITRELILAC_LABEL = 23,                /* S_LABEL32, _ST */
    MITRELILAC_BLOCK = 24,                /* S_BLOCK32, _ST */
    MITRELILAC_REGISTER_RELATIVE = 25,    /* S_REGREL32 */
    MITRELILAC_THUNK = 26,                /* S_THUNK32, _ST */
    MITRELILAC_SEPARATED_CODE = 27        /* S_SEPCODE */
};

/*
 * A record's fields.
 *
 *     out[0]  the class
 *     out[1]  the bytes of the record that its fields take, kind included; bytes behind them are ignored
 *
 * and from out[2] on the words of its class. `name` and other parts are two words, start and length in the record; `code` and other
 * places in the image are two words, offset and section; a parent or a next of 0 means none. "type" and "id" are indexes into the
 * PDB's type and id streams.
 *
 *     class                    out[2 ..]
 *     SCOPE_END                none
 *     OBJECT_NAME               2 signature   3 name
 *     REGISTER                  2 type   3 register   4 name
 *     CONSTANT                  2 managed?   3 type   4 mitrelilac_value   5 value   6 name
 *     USER_TYPE                 2 type   3 name
 *     REGISTER_LIST             2 type   3 count   4 where the first entry starts; see mitrelilac_register_entry
 *     DATA                      2 global?   3 managed?   4 type   5 place   7 name
 *     PUBLIC                    2 mitrelilac_public_flags   3 place   5 name
 *     PROCEDURE                 2 global?   3 DPC?   4 parent   5 end   6 next   7 length of the code
 *                               8 where its body starts (behind the prologue)   9 where it ends (before the epilogue)
 *                              10 type   11 code   13 mitrelilac_procedure_flags   14 name
 *     THREAD_STORAGE            2 global?   3 type   4 place   6 name
 *     COMPILE_FLAGS             2 mitrelilac_language   3 mitrelilac_compile_flags   4 mitrelilac_processor
 *                               5 front end: major   6 minor   7 build   8 has a QFE number?   9 QFE number, or 0
 *                              10 back end: major   11 minor   12 build   13 has a QFE number?   14 QFE number, or 0
 *                              15 the compiler's version in words (a part)
 *     NAMESPACE                 2 name
 *     PROCEDURE_REFERENCE       2 global?   3 sum of the name   4 index in the module   5 has a module?   6 module from 0 on, or 0
 *                               7 has a name?   8 name, or 0, 0
 *     DATA_REFERENCE            2 sum of the name   3 index in the module   4 has a module?   5 module from 0 on, or 0
 *                               6 has a name?   7 name, or 0, 0
 *     ANNOTATION_REFERENCE      2 sum of the name   3 index in the module   4 has a module?   5 module from 0 on, or 0   6 name
 *     TRAMPOLINE                2 mitrelilac_trampoline   3 size   4 thunk's place   6 target's place
 *     EXPORT                    2 ordinal   3 mitrelilac_export_flags   4 name
 *     LOCAL                     2 type   3 mitrelilac_local_flags   4 name
 *     BUILD_INFO                2 id
 *     INLINE_SITE               2 parent   3 end   4 id of the inlined function   5 has a number of invocations?   6 that number, or 0
 *                               7 annotations (a part: the line program; see mitrelilac_annotation)
 *     INLINE_SITE_END          none
 *     PROCEDURE_END            none
 *     LABEL                     2 code   4 mitrelilac_procedure_flags   5 name
 *     BLOCK                     2 parent   3 end   4 length of the code   5 code   7 name
 *     REGISTER_RELATIVE         2 offset (signed)   3 type   4 register   5 name
 *     THUNK                     2 parent   3 end   4 next   5 code   7 length of the code   8 mitrelilac_thunk
 *                               9 adjustor: delta; virtual call: entry of the table; unknown: its code; else 0
 *                              10 adjustor: name of the target (a part); else 0, 0   12 name
 *     SEPARATED_CODE            2 parent   3 end   4 length of the code   5 mitrelilac_separated_flags   6 code   8 place in the parent
 *
 * Refuses
 *     5  a record above 65,535 bytes
 *     1  a record below 2 bytes, or whose bytes run out before its last field
 *     3  a kind that is in none of the classes
 *     4  a constant whose value has an unknown prefix
 * with position 0; where both 1 and 4 would hold, the field that comes first decides.
 *
 * Flags, processors and values are those of crate pdb 0.8.0; where Microsoft's cvinfo.h reads otherwise, the enums below say so.
 */
uint32_t mitrelilac_decode(const uint8_t *record, size_t length, uint64_t out[MITRELILAC_WORDS(24)]);

/* How wide the value of a constant is in the record; signed ones are extended with their sign. */
enum mitrelilac_value {
    MITRELILAC_U8 = 0, /* cvinfo.h has a signed char here */
    MITRELILAC_U16 = 1,
    MITRELILAC_U32 = 2,
    MITRELILAC_U64 = 3,
    MITRELILAC_I16 = 5,
    MITRELILAC_I32 = 6,
    MITRELILAC_I64 = 7
};

enum mitrelilac_public_flags {
    MITRELILAC_PUBLIC_CODE = 0x1,
    MITRELILAC_PUBLIC_FUNCTION = 0x2,
    MITRELILAC_PUBLIC_MANAGED = 0x4,
    MITRELILAC_PUBLIC_MSIL = 0x8
};

/* Of procedures and of labels. */
enum mitrelilac_procedure_flags {
    MITRELILAC_PROCEDURE_NOFPO = 0x01,       /* the frame pointer is present */
    MITRELILAC_PROCEDURE_INT = 0x02,         /* interrupt return */
    MITRELILAC_PROCEDURE_FAR = 0x04,         /* far return */
    MITRELILAC_PROCEDURE_NEVER = 0x08,       /* does not return */
    MITRELILAC_PROCEDURE_NOTREACHED = 0x10,  /* is never called */
    MITRELILAC_PROCEDURE_CUST_CALL = 0x20,   /* a calling convention of its own */
    MITRELILAC_PROCEDURE_NOINLINE = 0x40,    /* marked as not to be inlined */
    MITRELILAC_PROCEDURE_OPTDBGINFO = 0x80   /* debug information for optimized code is there */
};

/* cvinfo.h has another flag at 0x10, which pdb leaves out: those from there on sit one bit low. */
enum mitrelilac_local_flags {
    MITRELILAC_LOCAL_ISPARAM = 0x001,        /* a parameter */
    MITRELILAC_LOCAL_ADDRTAKEN = 0x002,      /* its address is taken */
    MITRELILAC_LOCAL_COMPGENX = 0x004,       /* made by the compiler */
    MITRELILAC_LOCAL_ISAGGREGATE = 0x008,    /* split into parts that are treated apart */
    MITRELILAC_LOCAL_ISALIASED = 0x010,      /* has several lifetimes at once */
    MITRELILAC_LOCAL_ISALIAS = 0x020,        /* is one of these lifetimes */
    MITRELILAC_LOCAL_ISRETVALUE = 0x040,     /* a return value */
    MITRELILAC_LOCAL_ISOPTIMIZEDOUT = 0x080, /* has no lifetime */
    MITRELILAC_LOCAL_ISENREG_GLOB = 0x100,   /* a global in a register */
    MITRELILAC_LOCAL_ISENREG_STAT = 0x200    /* a static in a register */
};

enum mitrelilac_export_flags {
    MITRELILAC_EXPORT_CONSTANT = 0x01,
    MITRELILAC_EXPORT_DATA = 0x02,
    MITRELILAC_EXPORT_PRIVATE = 0x04,
    MITRELILAC_EXPORT_NO_NAME = 0x08,
    MITRELILAC_EXPORT_ORDINAL = 0x10,        /* the ordinal was given, not chosen */
    MITRELILAC_EXPORT_FORWARDER = 0x20
};

enum mitrelilac_separated_flags {
    MITRELILAC_SEPARATED_ISLEXICALSCOPE = 0x1,
    MITRELILAC_SEPARATED_RETURNSTOPARENT = 0x2
};

/* The last three are never set but by S_COMPILE3. */
enum mitrelilac_compile_flags {
    MITRELILAC_COMPILE_EDIT_AND_CONTINUE = 0x001,
    MITRELILAC_COMPILE_NO_DEBUG_INFO = 0x002,
    MITRELILAC_COMPILE_LINK_TIME_CODEGEN = 0x004,
    MITRELILAC_COMPILE_NO_DATA_ALIGN = 0x008,
    MITRELILAC_COMPILE_MANAGED = 0x010,
    MITRELILAC_COMPILE_SECURITY_CHECKS = 0x020,
    MITRELILAC_COMPILE_HOT_PATCH = 0x040,
    MITRELILAC_COMPILE_CVTCIL = 0x080,
    MITRELILAC_COMPILE_MSIL_MODULE = 0x100,
    MITRELILAC_COMPILE_SDL = 0x200,
    MITRELILAC_COMPILE_PGO = 0x400,
    MITRELILAC_COMPILE_EXP_MODULE = 0x800
};

enum mitrelilac_trampoline {
    MITRELILAC_TRAMPOLINE_INCREMENTAL = 0,
    MITRELILAC_TRAMPOLINE_BRANCH_ISLAND = 1,
    MITRELILAC_TRAMPOLINE_UNKNOWN = 2
};

enum mitrelilac_thunk {
    MITRELILAC_THUNK_NO_TYPE = 0,
    MITRELILAC_THUNK_ADJUSTOR = 1,
    MITRELILAC_THUNK_VCALL = 2,
    MITRELILAC_THUNK_PCODE = 3,
    MITRELILAC_THUNK_LOAD = 4,
    MITRELILAC_THUNK_UNKNOWN = 5
};

/* A language that is not listed reads as MASM. */
enum mitrelilac_language {
    MITRELILAC_LANGUAGE_C = 0x00,
    MITRELILAC_LANGUAGE_CPP = 0x01,
    MITRELILAC_LANGUAGE_FORTRAN = 0x02,
    MITRELILAC_LANGUAGE_MASM = 0x03,
    MITRELILAC_LANGUAGE_PASCAL = 0x04,
    MITRELILAC_LANGUAGE_BASIC = 0x05,
    MITRELILAC_LANGUAGE_COBOL = 0x06,
    MITRELILAC_LANGUAGE_LINK = 0x07,
    MITRELILAC_LANGUAGE_CVTRES = 0x08,
    MITRELILAC_LANGUAGE_CVTPGD = 0x09,
    MITRELILAC_LANGUAGE_CSHARP = 0x0a,
    MITRELILAC_LANGUAGE_VB = 0x0b,
    MITRELILAC_LANGUAGE_ILASM = 0x0c,
    MITRELILAC_LANGUAGE_JAVA = 0x0d,
    MITRELILAC_LANGUAGE_JSCRIPT = 0x0e,
    MITRELILAC_LANGUAGE_MSIL = 0x0f,
    MITRELILAC_LANGUAGE_HLSL = 0x10,
    MITRELILAC_LANGUAGE_D = 0x44
};

/* A processor that is not listed reads as INTEL_8080, cvinfo.h's ARM64 (0xf6) too. */
enum mitrelilac_processor {
    MITRELILAC_PROCESSOR_INTEL_8080 = 0x00,
    MITRELILAC_PROCESSOR_INTEL_8086 = 0x01,
    MITRELILAC_PROCESSOR_INTEL_80286 = 0x02,
    MITRELILAC_PROCESSOR_INTEL_80386 = 0x03,
    MITRELILAC_PROCESSOR_INTEL_80486 = 0x04,
    MITRELILAC_PROCESSOR_PENTIUM = 0x05,
    MITRELILAC_PROCESSOR_PENTIUM_PRO = 0x06,
    MITRELILAC_PROCESSOR_PENTIUM3 = 0x07,
    MITRELILAC_PROCESSOR_MIPS = 0x10,
    MITRELILAC_PROCESSOR_MIPS16 = 0x11,
    MITRELILAC_PROCESSOR_MIPS32 = 0x12,
    MITRELILAC_PROCESSOR_MIPS64 = 0x13,
    MITRELILAC_PROCESSOR_MIPSI = 0x14,
    MITRELILAC_PROCESSOR_MIPSII = 0x15,
    MITRELILAC_PROCESSOR_MIPSIII = 0x16,
    MITRELILAC_PROCESSOR_MIPSIV = 0x17,
    MITRELILAC_PROCESSOR_MIPSV = 0x18,
    MITRELILAC_PROCESSOR_M68000 = 0x20,
    MITRELILAC_PROCESSOR_M68010 = 0x21,
    MITRELILAC_PROCESSOR_M68020 = 0x22,
    MITRELILAC_PROCESSOR_M68030 = 0x23,
    MITRELILAC_PROCESSOR_M68040 = 0x24,
    MITRELILAC_PROCESSOR_ALPHA = 0x30,
    MITRELILAC_PROCESSOR_ALPHA21164 = 0x31,
    MITRELILAC_PROCESSOR_ALPHA21164A = 0x32,
    MITRELILAC_PROCESSOR_ALPHA21264 = 0x33,
    MITRELILAC_PROCESSOR_ALPHA21364 = 0x34,
    MITRELILAC_PROCESSOR_PPC601 = 0x40,
    MITRELILAC_PROCESSOR_PPC603 = 0x41,
    MITRELILAC_PROCESSOR_PPC604 = 0x42,
    MITRELILAC_PROCESSOR_PPC620 = 0x43,
    MITRELILAC_PROCESSOR_PPCFP = 0x44,
    MITRELILAC_PROCESSOR_PPCBE = 0x45,
    MITRELILAC_PROCESSOR_SH3 = 0x50,
    MITRELILAC_PROCESSOR_SH3E = 0x51,
    MITRELILAC_PROCESSOR_SH3DSP = 0x52,
    MITRELILAC_PROCESSOR_SH4 = 0x53,
    MITRELILAC_PROCESSOR_SHMEDIA = 0x54,
    MITRELILAC_PROCESSOR_ARM3 = 0x60,
    MITRELILAC_PROCESSOR_ARM4 = 0x61,
    MITRELILAC_PROCESSOR_ARM4T = 0x62,
    MITRELILAC_PROCESSOR_ARM5 = 0x63,
    MITRELILAC_PROCESSOR_ARM5T = 0x64,
    MITRELILAC_PROCESSOR_ARM6 = 0x65,
    MITRELILAC_PROCESSOR_ARM_XMAC = 0x66,
    MITRELILAC_PROCESSOR_ARM_WMMX = 0x67,
    MITRELILAC_PROCESSOR_ARM7 = 0x68,
    MITRELILAC_PROCESSOR_ARM64 = 0x69,
    MITRELILAC_PROCESSOR_OMNI = 0x70,
    MITRELILAC_PROCESSOR_IA64 = 0x80,
    MITRELILAC_PROCESSOR_IA64_2 = 0x81,
    MITRELILAC_PROCESSOR_CEE = 0x90,
    MITRELILAC_PROCESSOR_AM33 = 0xa0,
    MITRELILAC_PROCESSOR_M32R = 0xb0,
    MITRELILAC_PROCESSOR_TRI_CORE = 0xc0,
    MITRELILAC_PROCESSOR_X64 = 0xd0,
    MITRELILAC_PROCESSOR_EBC = 0xe0,
    MITRELILAC_PROCESSOR_THUMB = 0xf0,
    MITRELILAC_PROCESSOR_ARMNT = 0xf4,
    MITRELILAC_PROCESSOR_D3D11_SHADER = 0x100
};

/*
 * The instruction at a position in the annotations of an inline site, its line program: which code of the inlined function stands for which
 * of its lines. Start at position 0 of the part that mitrelilac_decode answers, and go on at the next position that each call answers.
 *
 *     out[0]  1: an instruction       0: there is none any more
 *     out[1]  mitrelilac_annotation_code
 *     out[2]  its operand
 *     out[3]  its second operand; 0 if it has one alone
 *     out[4]  the next position
 *
 * Where there is none any more only out[0] is written: at or past the end of the bytes, and at code 0, whatever follows it, since linkers pad
 * with zeros. Of an instruction the next position is above `position` and not above `length`, so that reading on ends. This is proved, of
 * the words (crates/mitrelilac/specs/Exported.antt). How many bytes there are has no limit.
 *
 * Refuses
 *     15  a number of the instruction is cut off, or its first byte is above 0xdf: the position of its first byte, which is
 *         `length` where no byte of an operand is there
 *     16  no instruction has this code: position 0, and the code as detail
 */
uint32_t mitrelilac_annotation(const uint8_t *annotations, size_t length, size_t position, uint64_t out[MITRELILAC_WORDS(5)]);

/*
 * The instructions. Those marked * emit a line record, from the offset and the line that the ones up to them say; how much code a record
 * covers, its code length says, or else the offset of the next one. Operands are below 0x20000000, signed ones between -0x10000000 and
 * 0x10000000.
 */
enum mitrelilac_annotation_code {
    MITRELILAC_ANNOTATION_CODE_OFFSET = 1,                             /* the code offset */
    MITRELILAC_ANNOTATION_CHANGE_CODE_OFFSET_BASE = 2,                 /* the base of the code offsets that follow */
    MITRELILAC_ANNOTATION_CHANGE_CODE_OFFSET = 3,                      /* * by how much the code offset grows */
    MITRELILAC_ANNOTATION_CHANGE_CODE_LENGTH = 4,                      /* the code length of the last line record; the offset is then behind it */
    MITRELILAC_ANNOTATION_CHANGE_FILE = 5,                             /* the file of the line records that follow */
    MITRELILAC_ANNOTATION_CHANGE_LINE_OFFSET = 6,                      /* by how much the line grows (signed) */
    MITRELILAC_ANNOTATION_CHANGE_LINE_END_DELTA = 7,                   /* how many lines a record covers; 1 if it is not set */
    MITRELILAC_ANNOTATION_CHANGE_RANGE_KIND = 8,                       /* 1 for a statement, also if it is not set; 0 for an expression */
    MITRELILAC_ANNOTATION_CHANGE_COLUMN_START = 9,                     /* the first column; 0 for none */
    MITRELILAC_ANNOTATION_CHANGE_COLUMN_END_DELTA = 10,                /* by how much the last column grows (signed) */
    MITRELILAC_ANNOTATION_CHANGE_CODE_OFFSET_AND_LINE_OFFSET = 11,     /* * by how much the code offset grows, and the line (signed) */
    MITRELILAC_ANNOTATION_CHANGE_CODE_LENGTH_AND_CODE_OFFSET = 12,     /* * the code length, and by how much the code offset grows */
    MITRELILAC_ANNOTATION_CHANGE_COLUMN_END = 13                       /* the last column */
};

#ifdef __cplusplus
}
#endif

#endif

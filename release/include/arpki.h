/*
 * arpki.h: what a client may believe about a domain's key, for programs in C and C++.
 *
 * A client trusts the keys of logs and authorities (struct arpki_keys). It is given a confirmation: a message in which
 * one log and two authorities say which certificate a name has, or that it has none. arpki_judge tells what the client
 * makes of it. arpki_staple and arpki_connect also tell whether a server has the key of that certificate. arpki_follow also
 * holds it against what the client pinned of the name before. arpki_judge_in judges by the directory of the name's table, of
 * many tables under one root. arpki_learn takes the next key of a party that went on to one, and arpki_verify judges one
 * signature (LMS, RFC 8554).
 *
 * What a caller does once: fill in an arpki_keys with the keys that it ships. For each confirmation: fill in an
 * arpki_question, call arpki_judge, and go on with answer.subject where the outcome is ARPKI_ACCEPTED. Set each field of
 * both structs; no pointer in them may be null, also where there is nothing (learnt_len 0).
 *
 * The functions have no state, no handle and no initialisation. What a client knows is plain data of the caller's. They
 * open no file, read no clock, use no network, write to no stream, start no thread and take no lock.
 *
 * OWNERSHIP. All memory that is passed stays the caller's. It is read, or written, during the call alone, and no pointer
 * to it is kept. Memory that a call takes is given back before it returns, by malloc, realloc and free of the process.
 *
 * THREADS. Any number of threads may call at once, also with one struct arpki_keys, with one question and with one pin,
 * as long as nobody writes to them meanwhile. Each call needs an answer or a lesson of its own to write to.
 *
 * ANSWERS. An answer (or a lesson) is written whole, in each outcome: what the outcome does not speak of is zero, so
 * nothing of an earlier call stays in it. It need not be initialised. The function returns its `outcome` too. 0 is
 * the one outcome that lets a client go on with the certificate; treat any number that you do not know as a refusal.
 *
 * WHAT A CALLER HAS TO KEEP. The functions test all that they are told (how many keys, what keys and messages say, any
 * bytes of any length), but they cannot test pointers. Behaviour is undefined where one of these does not hold:
 *   - No pointer is null, also where the length beside it is 0 (pass the address of anything then, as "" or an array).
 *   - Behind a pointer lie as many elements as the length beside it says, initialised, and not written meanwhile.
 *   - No length times the size of its element is more than PTRDIFF_MAX.
 *   - Pointers to structs are aligned as the structs are.
 *   - What a call writes (the answer, the lesson) overlaps nothing that it reads.
 *   - malloc, realloc and free are of one allocator, and align a block as the C standard says.
 *   - No call is made from a signal handler, or in the child of a fork of a process that has threads.
 *   - The thread has 64 KiB of stack for the call, and 64 bytes more for each change of a pin: 512 KiB are enough for
 *     arpki_follow. (Of the calls that tools/c-library measures, that of a pin of 4,096 changes, the most that there
 *     can be, uses 268 KiB, and each other one less than 32 KiB.)
 * Whether keys, entries and pins are the right ones is the caller's to know: who can write to them decides what is
 * believed.
 *
 * A program that is linked with the shared object can compare arpki_abi() with ARPKI_ABI. The library is built for Linux
 * on x86-64.
 */
#ifndef ARPKI_H
#define ARPKI_H

#include <stddef.h>
#include <stdint.h>

#if defined(__GNUC__)
#define ARPKI_CHECKED __attribute__((nonnull, warn_unused_result))
#else
#define ARPKI_CHECKED
#endif

#ifdef __cplusplus
extern "C" {
#endif

/* The number of this header's functions and layouts. It rises when one of them changes. */
#define ARPKI_ABI 1

/* Sizes in bytes. */
enum {
    ARPKI_KEY_SIZE = 56,       /* a public key */
    ARPKI_DIGEST_SIZE = 32,    /* a digest of SHA-256 */
    ARPKI_CHALLENGE_SIZE = 32, /* a challenge */
    ARPKI_CHANNEL_SIZE = 32,   /* the digest of a TLS key */
    ARPKI_FIRST_SIZE = 412     /* the field for the first bytes of a pin */
};

/* The role of a party in an entry. */
enum {
    ARPKI_LOG = 1,
    ARPKI_AUTHORITY = 2
};

/* The outcomes of arpki_judge, arpki_staple, arpki_connect, arpki_follow and arpki_judge_in. */
enum {
    /* The certificate is the name's. Of arpki_staple and arpki_connect: and the server has its key. Of arpki_follow: and it is the newest
     * that is pinned, or the links lead to it from there, or the name was not pinned; `keep` says which. */
    ARPKI_ACCEPTED = 0,
    /* The name has no certificate. No key is the name's. */
    ARPKI_ABSENT = 1,
    /* The confirmation is refused. `check` is the number of the first check that fails (ARPKI_CHECK_...). */
    ARPKI_REFUSED = 2,
    /* malloc or realloc gave no memory. Nothing is told of the confirmation, the server or the note; try again later. */
    ARPKI_NO_MEMORY = 3,
    /* The keys are none that a client can trust together. `check` says what is wrong (ARPKI_KEYS_...). */
    ARPKI_BAD_KEYS = 4,
    /* Of arpki_staple and arpki_connect: the confirmation is accepted, and the staple or the response is not valid. `check` is
     * the number of the first condition of a signature that fails, 1 to 5, as for arpki_verify. */
    ARPKI_NO_POSSESSION = 5,

    /* The others are of arpki_follow. In those from ARPKI_NO_LINKS to ARPKI_FULL the confirmation would be accepted, if
     * nothing was pinned of the name. */

    /* The name has no certificate, and is pinned. No log takes a name out: treat it as an attack. */
    ARPKI_GONE = 6,
    /* Another certificate is pinned, and no links are given. Ask for them. */
    ARPKI_NO_LINKS = 7,
    /* An endorsement in a link is not valid, or by an authority that is not in the keys, or by a key of it that is not
     * known. `check` is the number of the authority, from 0, and `links` says how many links before this one hold. */
    ARPKI_BAD_ENDORSEMENT = 8,
    /* A link does not follow the certificate before it by the policy of that one. `check` is the number of the first clause
     * that fails (ARPKI_CLAUSE_...), and `links` says how many links before this one hold. */
    ARPKI_BAD_UPDATE = 9,
    /* All links hold, and the last one is of another certificate than that of the confirmation. */
    ARPKI_WRONG_END = 10,
    /* There are more than 64 links. Give them in parts, each with a confirmation of its own. */
    ARPKI_LONG = 11,
    /* With the links there would be more than 4,096 changes in the pin. */
    ARPKI_FULL = 12,
    /* The pin is none of this name. `check` says why (ARPKI_PIN_...). */
    ARPKI_BAD_PIN = 13,
    /* The bytes of the links are not the texts of at most 4,096 changes, one behind the other. */
    ARPKI_BAD_LINKS = 14,

    /* The others are of arpki_judge_in. */

    /* The bytes that are shown are no directory of a table. */
    ARPKI_NO_DIRECTORY = 15,
    /* The directory is shown as that of another table than the name's. */
    ARPKI_OTHER_TABLE = 16,
    /* The path does not lead from the directory to the root of the map. */
    ARPKI_OTHER_ROOT = 17,
    /* A map has at most 24 bits. */
    ARPKI_NO_MAP = 18
};

/* What arpki_follow has a caller keep. */
enum {
    /* Leave the pin as it is. */
    ARPKI_KEEP_NOTHING = 0,
    /* The name was not pinned, and is now: its pin is the first_len bytes of `first`. */
    ARPKI_KEEP_FIRST = 1,
    /* The domain changed its certificate, by its own policy each time: put the bytes of the links behind those of the pin. */
    ARPKI_KEEP_LINKS = 2
};

/* The outcomes of arpki_learn, beside ARPKI_NO_MEMORY and ARPKI_BAD_KEYS. */
enum {
    /* The key is new. Put `entry` behind the others, and keep it. */
    ARPKI_LEARNT = 0,
    /* The key is known already: there is nothing to add. */
    ARPKI_KNOWN = 1,
    /* The bytes are no RollNote. */
    ARPKI_NO_NOTE = 2,
    /* The party is none of the logs and authorities in the keys. */
    ARPKI_UNKNOWN_PARTY = 5,
    /* The party's signature is not valid. `check` is the number of the test that fails: 1 to 5 as for arpki_verify, 6 the
     * key of the generation that signed is not known (learn the notes before this one first), 7 the signature stands at
     * a leaf that is not for it. */
    ARPKI_BAD_SIGNATURE = 6,
    /* Another key is known as the next: the party signed two, or the entries are not those that were written. If they are,
     * trust the party no longer. */
    ARPKI_OTHER_KEY = 7
};

/* `check` of ARPKI_REFUSED: the first of eleven checks that fails. All before it hold. */
enum {
    ARPKI_CHECK_FORM = 1,              /* the bytes are no confirmation */
    ARPKI_CHECK_NAME = 2,              /* it is of another name */
    ARPKI_CHECK_PARTIES = 3,           /* a log or authority is not in the keys, or the two authorities are one */
    ARPKI_CHECK_LOG_SIGNATURE = 4,     /* the log's signature is not valid, or by a key that is not known */
    ARPKI_CHECK_FIRST_SIGNATURE = 5,   /* the same of the first authority */
    ARPKI_CHECK_SECOND_SIGNATURE = 6,  /* the same of the second authority */
    ARPKI_CHECK_PATH = 7,              /* the certificate has another name, or its path does not lead to the root */
    ARPKI_CHECK_FUTURE = 8,            /* its epoch is later than `now` */
    ARPKI_CHECK_AGE = 9,               /* it is older than `age`, or than the certificate allows */
    ARPKI_CHECK_REVOKED = 10,          /* the certificate is revoked */
    ARPKI_CHECK_EXPIRED = 11           /* the certificate has expired */
};

/* `check` of ARPKI_BAD_UPDATE: the first clause of the rule that fails. "Old" is what the certificate before says. */
enum {
    ARPKI_CLAUSE_REVOKED = 1,    /* the old certificate is revoked */
    ARPKI_CLAUSE_NAME = 2,       /* the name is another one */
    ARPKI_CLAUSE_SERIAL = 3,     /* the serial number is not the next */
    ARPKI_CLAUSE_PREVIOUS = 4,   /* the previous digest is not the old certificate's, or the link is an objection */
    ARPKI_CLAUSE_ENDORSERS = 5,  /* fewer than three authorities endorse it */
    ARPKI_CLAUSE_THRESHOLD = 6,  /* fewer authorities endorse it than the old policy asks for; also of a recovery */
    ARPKI_CLAUSE_HANDOVER = 7,   /* the old policy asks for a handover, and there is no valid one; also of a recovery */
    ARPKI_CLAUSE_POLICY = 8      /* the new policy is not well formed */
};

/* `check` of ARPKI_BAD_PIN. */
enum {
    ARPKI_PIN_FORM = 1,   /* the bytes are not the texts of at most 4,096 changes, one behind the other */
    ARPKI_PIN_NAME = 2,   /* it is of another name */
    ARPKI_PIN_CHAIN = 3   /* one of its certificates does not follow the one before it */
};

/* `check` of ARPKI_BAD_KEYS: the first thing that is wrong with the keys. */
enum {
    ARPKI_KEYS_LOGS = 1,           /* there are not 3 to 16 logs */
    ARPKI_KEYS_AUTHORITIES = 2,    /* there are not 3 to 16 authorities */
    ARPKI_KEYS_QUORUM = 3,         /* twice the quorum is not more than logs_len + 2, or it is more than logs_len */
    ARPKI_KEYS_LOG_KEY = 4,        /* the key of a log is no public key */
    ARPKI_KEYS_AUTHORITY_KEY = 5,  /* the key of an authority is no public key */
    ARPKI_KEYS_ENTRY = 6           /* the role of an entry is neither 1 nor 2, or its key is no public key */
};

/* A public key of LMS (RFC 8554, section 5.3): u32 LMS type, u32 LM-OTS type, I (16 bytes), T[1] (32 bytes), the
 * numbers with the most significant byte first. Known are the LMS types 5 to 9 and the LM-OTS types 1 to 4. */
typedef struct arpki_key {
    uint8_t bytes[ARPKI_KEY_SIZE];
} arpki_key;

/* The next key of a party, as arpki_learn wrote it. It has no padding: on one machine its 64 bytes can be stored as they
 * stand. Who can write entries can replace a party's key, so store them as safely as the keys themselves. */
typedef struct arpki_entry {
    uint32_t generation; /* of the key that announced it, from 0; its own generation is the next */
    uint16_t number;     /* the party's place in `logs` or `authorities`, from 0 */
    uint16_t role;       /* ARPKI_LOG or ARPKI_AUTHORITY */
    arpki_key key;
} arpki_entry;

/* What a client trusts. The arrays are the caller's. */
typedef struct arpki_keys {
    /* The key of each log, of generation 0, by its number; 3 to 16 of them. */
    const arpki_key *logs;
    size_t logs_len;
    /* The same of the authorities. */
    const arpki_key *authorities;
    size_t authorities_len;
    /* What was learnt: each entry once, in the order in which arpki_learn wrote them. An entry whose party or whose
     * generation is not known by what stands before it is passed over; one that stands a second time takes back the keys
     * of its party that were learnt behind it. */
    const arpki_entry *learnt;
    size_t learnt_len;
    /* How many logs make a quorum. */
    size_t quorum;
} arpki_keys;

/* The next key of a party of a table of a map: the entry that arpki_learn wrote, and the digest of the directory that learnt
 * it (arpki_directory). It has no padding, as an arpki_entry has none. */
typedef struct arpki_map_entry {
    uint8_t directory[ARPKI_DIGEST_SIZE];
    arpki_entry entry;
} arpki_map_entry;

/* What a client of a map trusts: of 2 ^ bits tables the root over their directories. */
typedef struct arpki_map {
    /* What was learnt of whatever tables, in the order in which it was learnt. Of a table the entries that have its directory's
     * digest are taken, as in an arpki_keys, and all others are passed over. */
    const arpki_map_entry *learnt;
    size_t learnt_len;
    /* The root. */
    uint8_t root[ARPKI_DIGEST_SIZE];
    /* How many first bits of a name's key are the number of its table; at most 24. */
    uint8_t bits;
} arpki_map;

/* What is asked of a confirmation. The bytes are the caller's. */
typedef struct arpki_question {
    /* The name of the domain: name_len bytes, in lower case and without a zero byte at their end ("a.example" is 9). No
     * confirmation is of what is no name, so such bytes are refused, as another name is. */
    const uint8_t *name;
    size_t name_len;
    /* The confirmation: confirmation_len bytes, as they came. Any bytes may be given. */
    const uint8_t *confirmation;
    size_t confirmation_len;
    /* The current epoch, by a clock that the caller trusts. */
    uint64_t epoch;
    /* How many epochs old a confirmation may be, at most. */
    uint64_t age;
} arpki_question;

/* What is told of a confirmation or of a server. */
typedef struct arpki_answer {
    /* ARPKI_ACCEPTED, ARPKI_ABSENT and ARPKI_GONE: the epoch at whose end the name has the certificate, or none. */
    uint64_t epoch;
    /* ARPKI_ACCEPTED: the serial number of the certificate, from 0. */
    uint64_t serial;
    /* ARPKI_ACCEPTED: its subject key. Go on with this key, and with no other. */
    arpki_key subject;
    /* ARPKI_ACCEPTED: the digest of the certificate. */
    uint8_t certificate[ARPKI_DIGEST_SIZE];
    /* ARPKI_ACCEPTED, ARPKI_ABSENT and ARPKI_GONE: the root of the table on which the logs agreed for the epoch. */
    uint8_t root[ARPKI_DIGEST_SIZE];
    /* ARPKI_ACCEPTED or why not: one of those that the function names. */
    uint32_t outcome;
    /* The number of what fails, where the outcome has one. */
    uint32_t check;
} arpki_answer;

/* What is told of a confirmation by what is pinned of its name. */
typedef struct arpki_followed {
    /* What is told of the confirmation. Go on only where its outcome is ARPKI_ACCEPTED. */
    arpki_answer answer;
    /* ARPKI_KEEP_FIRST: how many bytes of `first` to keep, at most 406. */
    size_t first_len;
    /* How many links hold, from the first on: all of them where `keep` is ARPKI_KEEP_LINKS, and those before the one that
     * fails in ARPKI_BAD_ENDORSEMENT and ARPKI_BAD_UPDATE. */
    size_t links;
    /* ARPKI_KEEP_NOTHING, ARPKI_KEEP_FIRST or ARPKI_KEEP_LINKS. The last two are of ARPKI_ACCEPTED alone. */
    uint32_t keep;
    /* ARPKI_KEEP_FIRST: the new pin. */
    uint8_t first[ARPKI_FIRST_SIZE];
} arpki_followed;

/* What is learnt of a RollNote. */
typedef struct arpki_lesson {
    /* ARPKI_LEARNT: the entry to keep. */
    arpki_entry entry;
    /* ARPKI_LEARNT, ARPKI_KNOWN, ARPKI_NO_NOTE, ARPKI_NO_MEMORY, ARPKI_BAD_KEYS, ARPKI_UNKNOWN_PARTY,
     * ARPKI_BAD_SIGNATURE or ARPKI_OTHER_KEY. */
    uint32_t outcome;
    /* ARPKI_BAD_KEYS and ARPKI_BAD_SIGNATURE: the number of what fails. */
    uint32_t check;
} arpki_lesson;

/* Judges a confirmation of a name.
 *
 * Reads `keys` with its three arrays, and `question` with its name and its confirmation. Writes `answer`, and returns its
 * outcome: ARPKI_ACCEPTED, ARPKI_ABSENT, ARPKI_REFUSED, ARPKI_NO_MEMORY or ARPKI_BAD_KEYS.
 */
ARPKI_CHECKED uint32_t arpki_judge(const arpki_keys *keys, const arpki_question *question, arpki_answer *answer);

/* Judges a confirmation of a name as arpki_judge does, by the directory that is shown beside it, where that is the directory
 * of the name's table in the map. Whoever shows it need not be trusted with it: under one root each name has one directory.
 *
 * Reads `map` with its entries; `question` with its name and its confirmation; and shown_len bytes of `shown`: the number of
 * the table in 4 bytes, the first the most significant; the size of a quorum, how many logs and how many authorities there
 * are, a byte each; their keys of generation 0, 56 bytes each; and the path, 32 bytes for each bit of the map. Writes
 * `answer`, and returns its outcome: those of arpki_judge (ARPKI_BAD_KEYS of an entry alone), ARPKI_NO_DIRECTORY,
 * ARPKI_OTHER_TABLE, ARPKI_OTHER_ROOT or ARPKI_NO_MAP.
 */
ARPKI_CHECKED uint32_t arpki_judge_in(const arpki_map *map, const arpki_question *question,
                                      const uint8_t *shown, size_t shown_len,
                                      arpki_answer *answer);

/* Tells under which digest the entries of a table are to be kept.
 *
 * Reads shown_len bytes of `shown`, as arpki_judge_in does; whether they stand in a map is not looked at. Writes 32 bytes of
 * `digest`, and returns 0; or ARPKI_NO_DIRECTORY or ARPKI_NO_MEMORY, and then they are zero. To learn a key of the table, call
 * arpki_learn with keys that lie in `shown`: the logs from byte 7 on, the authorities behind them, the quorum in byte 4, and
 * with the entries of the table as `learnt`.
 */
ARPKI_CHECKED uint32_t arpki_directory(const uint8_t *shown, size_t shown_len, uint8_t digest[ARPKI_DIGEST_SIZE]);

/* Judges a server that claims to serve a name: the confirmation as arpki_judge does, and then the server's response to a
 * challenge, as a signature by the subject key of the certificate that is accepted.
 *
 * Reads what arpki_judge reads; the 32 bytes of `challenge`; and response_len bytes of `response`, the server's. Writes
 * `answer`, and returns its outcome: ARPKI_ACCEPTED (the connection is open), ARPKI_NO_POSSESSION, or one of the others of
 * arpki_judge.
 *
 * The challenge is of this connection alone, and both ends make it themselves: SHA-256 of the byte 0x21, of 32 bytes that the
 * client drew at random, which it sends, and of 32 bytes that the TLS connection exports (RFC 8446, section 7.5, label
 * `EXPORTER-arpki-possession`, the random bytes as context). A server that signed any 32 bytes which it is sent would sign for a
 * man in the middle what he needs. Where one answer is to serve all visitors, call arpki_staple.
 */
ARPKI_CHECKED uint32_t arpki_connect(const arpki_keys *keys, const arpki_question *question,
                                     const uint8_t challenge[ARPKI_CHALLENGE_SIZE],
                                     const uint8_t *response, size_t response_len,
                                     arpki_answer *answer);

/* Judges a confirmation of a name as arpki_judge does, and then the server's staple: a signature, by the subject key of the
 * certificate that is accepted, of the challenge that belongs to the confirmation's epoch and to a TLS key. This is what a client
 * of a web server calls: one staple serves all visitors of an epoch, and who has another TLS key has no staple for it.
 *
 * Reads what arpki_judge reads; the 32 bytes of `channel`, which are SHA-256 of the SubjectPublicKeyInfo (DER) of the TLS key that
 * the server of this very connection has shown, as the client saw it, and never as the server told it; and staple_len bytes of
 * `staple`, the server's. Writes `answer`, and returns its outcome: ARPKI_ACCEPTED (the connection is open),
 * ARPKI_NO_POSSESSION (the staple is of another epoch, TLS key, certificate or signer, or is none), or one of the others of
 * arpki_judge. How old a staple may be is how old the confirmation beside it may be.
 */
ARPKI_CHECKED uint32_t arpki_staple(const arpki_keys *keys, const arpki_question *question,
                                    const uint8_t channel[ARPKI_CHANNEL_SIZE],
                                    const uint8_t *staple, size_t staple_len,
                                    arpki_answer *answer);

/* Judges a confirmation of a name as arpki_judge does, and then holds the certificate against what is pinned of the name:
 * where it is another one than the newest that is pinned, the links have to lead to it from there.
 *
 * A pin is what the caller keeps of a name, as bytes: the texts of changes, one behind the other, the oldest first, at most
 * 4,096. A link is a change too: a certificate, and what vouched for it. A server or an archive hands links over; whoever it
 * is, they are judged here. Their bytes stand one behind the other as well, the oldest first. A change says itself where it
 * ends, so no lengths stand between them.
 *
 * Reads what arpki_judge reads; pin_len bytes of `pin`, which are none where the name is not pinned (pin_len 0); and
 * links_len bytes of `links`, or none. Writes `followed`, and returns the outcome of its answer: those of arpki_judge,
 * ARPKI_GONE, ARPKI_NO_LINKS, ARPKI_BAD_ENDORSEMENT, ARPKI_BAD_UPDATE, ARPKI_WRONG_END, ARPKI_LONG, ARPKI_FULL,
 * ARPKI_BAD_PIN or ARPKI_BAD_LINKS. Of several faults the first is told: of the keys, of the pin, of the bytes of the links, of
 * the confirmation by itself, and then of what is pinned. Links that are not needed (the certificate is the newest that is
 * pinned, or the name is not pinned) have to be changes, and are not judged.
 *
 * What to keep `keep` says, and it changes nothing itself. Where it is ARPKI_KEEP_FIRST, store the first_len bytes of `first`
 * as the pin of the name; where it is ARPKI_KEEP_LINKS, put the bytes of `links`, all of them, behind those of the pin. The
 * next call with these bytes goes on where this one ended. Of two calls about one name at once, keep what one of them says,
 * and make the other again. To forget a name, throw its pin away.
 *
 * The certificates of a pin are judged in each call by the policies in them alone, and what vouched for them is not verified
 * again; that was done when they were pinned, by keys that may be others by now. So who can write to a pin decides what is
 * pinned: keep pins as safely as the keys.
 */
ARPKI_CHECKED uint32_t arpki_follow(const arpki_keys *keys, const arpki_question *question,
                                    const uint8_t *pin, size_t pin_len,
                                    const uint8_t *links, size_t links_len,
                                    arpki_followed *followed);

/* Learns the next key of a log or an authority from a RollNote, which the party signed with the key before it. Nothing
 * is changed in `keys`: where the outcome is ARPKI_LEARNT, put lesson->entry behind the entries of `keys`, and the keys
 * are those that learnt from the note. From whom a note comes does not matter.
 *
 * Reads `keys` with its three arrays, and note_len bytes of `note`. Writes `lesson`, and returns its outcome.
 * Outcomes: ARPKI_LEARNT, ARPKI_KNOWN, ARPKI_NO_NOTE, ARPKI_NO_MEMORY, ARPKI_BAD_KEYS, ARPKI_UNKNOWN_PARTY,
 * ARPKI_BAD_SIGNATURE, ARPKI_OTHER_KEY.
 */
ARPKI_CHECKED uint32_t arpki_learn(const arpki_keys *keys,
                                   const uint8_t *note, size_t note_len,
                                   arpki_lesson *lesson);

/* Judges the signature of a message under a public key (RFC 8554, section 5.4.2). It takes no memory.
 *
 * Reads `key`, message_len bytes of `message`, and signature_len bytes of `signature`. Returns 0 where the signature is
 * valid; else the first condition that fails: 1 its length, 2 its LM-OTS type, 3 its LMS type, 4 its leaf's number, 5 the
 * root that it leads to; and 6 where `key` is no public key.
 */
ARPKI_CHECKED uint32_t arpki_verify(const arpki_key *key,
                                    const uint8_t *message, size_t message_len,
                                    const uint8_t *signature, size_t signature_len);

/* The ARPKI_ABI of the library. */
uint32_t arpki_abi(void);

#ifdef __cplusplus
}
#endif

#endif

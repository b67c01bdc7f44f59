/* The bytes of arpki in a TLS handshake: docs/TLS.md, "Bytes". Nothing here takes memory. */
#include "arpki_tls.h"

#include <string.h>
#include <openssl/evp.h>
#include <openssl/x509.h>

/* ---- reading from the front: each function answers 0 where too few bytes are ahead */

static const uint8_t NOTHING[1];

static int take(arpki_tls_bytes *from, size_t count, const uint8_t **at)
{
    if (count > from->len)
        return 0;
    *at = from->at;
    from->at += count;
    from->len -= count;
    return 1;
}

static int take_number(arpki_tls_bytes *from, size_t width, uint64_t *number)
{
    const uint8_t *at;
    if (!take(from, width, &at))
        return 0;
    *number = 0;
    for (size_t i = 0; i < width; i++)
        *number = *number << 8 | at[i];
    return 1;
}

/* Bytes behind their length. */
static int take_counted(arpki_tls_bytes *from, size_t width, arpki_tls_bytes *bytes)
{
    uint64_t count;
    if (!take_number(from, width, &count) || count > from->len)
        return 0;
    bytes->len = (size_t)count;
    return take(from, bytes->len, &bytes->at);
}

/* ---- writing: `at` goes on */

static void put_number(uint8_t **at, size_t width, uint64_t number)
{
    for (size_t i = 0; i < width; i++)
        (*at)[i] = (uint8_t)(number >> 8 * (width - 1 - i));
    *at += width;
}

static void put_bytes(uint8_t **at, arpki_tls_bytes bytes)
{
    if (bytes.len != 0)
        memcpy(*at, bytes.at, bytes.len);
    *at += bytes.len;
}

/* ---- what a client says */

enum { SAYS_PIN = 1, SAYS_KNOWN = 2 };

/* Whether one party stands before another: by role, then by number. */
static int is_before(const arpki_tls_generation *one, const arpki_tls_generation *other)
{
    return one->role != other->role ? one->role < other->role : one->number < other->number;
}

/* Whether generations are of logs and authorities, and ascend strictly. */
static int are_known(const arpki_tls_generation *known, size_t len)
{
    for (size_t i = 0; i < len; i++)
        if ((known[i].role != 1 && known[i].role != 2) || (i != 0 && !is_before(&known[i - 1], &known[i])))
            return 0;
    return 1;
}

size_t arpki_tls_write_hello(const arpki_tls_hello *hello, uint8_t out[ARPKI_TLS_MOST_HELLO])
{
    uint8_t *at = out;
    if (hello->says_known && (hello->known_len > ARPKI_TLS_MOST_KNOWN || !are_known(hello->known, hello->known_len)))
        return 0;
    put_number(&at, 1, 1);
    put_number(&at, 1, ARPKI_TLS_VERSION);
    put_number(&at, 1, (hello->says_pin ? SAYS_PIN : 0u) | (hello->says_known ? SAYS_KNOWN : 0u));
    if (hello->says_pin)
        put_bytes(&at, (arpki_tls_bytes){hello->pin, ARPKI_TLS_DIGEST});
    if (hello->says_known) {
        put_number(&at, 1, hello->known_len);
        for (size_t i = 0; i < hello->known_len; i++) {
            put_number(&at, 1, hello->known[i].role);
            put_number(&at, 2, hello->known[i].number);
            put_number(&at, 4, hello->known[i].generation);
        }
    }
    return (size_t)(at - out);
}

/* Whether versions ascend strictly, and ours is among them. */
static int has_version(arpki_tls_bytes versions)
{
    int found = 0;
    for (size_t i = 0; i < versions.len; i++) {
        if (i != 0 && versions.at[i] <= versions.at[i - 1])
            return 0;
        found |= versions.at[i] == ARPKI_TLS_VERSION;
    }
    return found;
}

static int take_known(arpki_tls_bytes *from, arpki_tls_hello *hello)
{
    uint64_t count, role, number, generation;
    if (!take_number(from, 1, &count) || count > ARPKI_TLS_MOST_KNOWN)
        return 0;
    hello->known_len = (size_t)count;
    for (size_t i = 0; i < hello->known_len; i++) {
        if (!take_number(from, 1, &role) || !take_number(from, 2, &number) || !take_number(from, 4, &generation))
            return 0;
        hello->known[i] = (arpki_tls_generation){(uint8_t)role, (uint16_t)number, (uint32_t)generation};
    }
    return are_known(hello->known, hello->known_len);
}

int arpki_tls_read_hello(const uint8_t *in, size_t len, arpki_tls_hello *hello)
{
    arpki_tls_bytes from = {in, len}, versions;
    uint64_t says;
    memset(hello, 0, sizeof *hello);
    if (len > ARPKI_TLS_MOST_HELLO || !take_counted(&from, 1, &versions) || !has_version(versions) || !take_number(&from, 1, &says)
        || (says & ~(uint64_t)(SAYS_PIN | SAYS_KNOWN)) != 0)
        return 0;
    if (says & SAYS_PIN) {
        const uint8_t *pin;
        if (!take(&from, ARPKI_TLS_DIGEST, &pin))
            return 0;
        memcpy(hello->pin, pin, ARPKI_TLS_DIGEST);
        hello->says_pin = 1;
    }
    if (says & SAYS_KNOWN) {
        if (!take_known(&from, hello))
            return 0;
        hello->says_known = 1;
    }
    return from.len == 0;
}

uint32_t arpki_tls_known_of(const arpki_tls_hello *hello, uint8_t role, uint16_t number)
{
    for (size_t i = 0; i < hello->known_len; i++)
        if (hello->known[i].role == role && hello->known[i].number == number)
            return hello->known[i].generation;
    return 0;
}

/* ---- what a server answers */

static int take_proof(arpki_tls_bytes *from, arpki_tls_answer *answer)
{
    return take_counted(from, 4, &answer->confirmation) && answer->confirmation.len != 0
           && take_counted(from, 4, &answer->staple) && answer->staple.len != 0;
}

int arpki_tls_read_proof(const uint8_t *in, size_t len, arpki_tls_answer *proof)
{
    arpki_tls_bytes from = {in, len};
    *proof = (arpki_tls_answer){{NOTHING, 0}, {NOTHING, 0}, {NOTHING, 0}, {NOTHING, 0}, 0};
    return take_proof(&from, proof) && from.len == 0;
}

int arpki_tls_next_note(arpki_tls_bytes *notes, arpki_tls_bytes *note)
{
    return take_counted(notes, 2, note) && note->len != 0;
}

int arpki_tls_read_answer(const uint8_t *in, size_t len, arpki_tls_answer *answer)
{
    arpki_tls_bytes from = {in, len}, left, note;
    uint64_t version, count;
    *answer = (arpki_tls_answer){{NOTHING, 0}, {NOTHING, 0}, {NOTHING, 0}, {NOTHING, 0}, 0};
    if (len > ARPKI_TLS_MOST || !take_number(&from, 1, &version))
        return 0;
    if (version != ARPKI_TLS_VERSION)
        return -1;
    if (!take_proof(&from, answer) || !take_counted(&from, 4, &answer->links) || !take_number(&from, 1, &count))
        return 0;
    answer->notes = left = from;
    answer->notes_len = (unsigned)count;
    for (unsigned i = 0; i < answer->notes_len; i++)
        if (!arpki_tls_next_note(&left, &note))
            return 0;
    return left.len == 0;
}

size_t arpki_tls_write_answer(arpki_tls_bytes proof, arpki_tls_bytes links, const arpki_tls_bytes *notes, size_t notes_len,
                              uint8_t *out)
{
    arpki_tls_answer read;
    arpki_tls_bytes ahead = links, change, certificate;
    uint8_t *at = out;
    size_t room = ARPKI_TLS_ROOM - 6, fit = 0, linked = 0; /* 6: the version, the length of the links and the count of notes */
    if (proof.len > room || !arpki_tls_read_proof(proof.at, proof.len, &read))
        return 0;
    room -= proof.len;
    while (fit < notes_len && fit < ARPKI_TLS_MOST_NOTES && notes[fit].len != 0 && notes[fit].len + 2 <= room)
        room -= notes[fit++].len + 2;
    while (arpki_tls_next_change(&ahead, &change, &certificate) && change.len <= room - linked)
        linked += change.len;
    put_number(&at, 1, ARPKI_TLS_VERSION);
    put_bytes(&at, proof);
    put_number(&at, 4, linked);
    put_bytes(&at, (arpki_tls_bytes){links.at, linked});
    put_number(&at, 1, fit);
    for (size_t i = 0; i < fit; i++) {
        put_number(&at, 2, notes[i].len);
        put_bytes(&at, notes[i]);
    }
    return (size_t)(at - out);
}

/* ---- what is read of confirmations and changes (docs/FORMATS.md). No signature is verified here. */

int arpki_tls_next_change(arpki_tls_bytes *changes, arpki_tls_bytes *change, arpki_tls_bytes *certificate)
{
    arpki_tls_bytes from = *changes, signature;
    uint64_t count, authority, flag;
    if (!take_counted(&from, 2, certificate) || !take_number(&from, 1, &count))
        return 0;
    for (uint64_t i = 0; i < count; i++)
        if (!take_number(&from, 2, &authority) || !take_counted(&from, 2, &signature))
            return 0;
    if (!take_number(&from, 1, &flag) || flag > 2 || (flag != 0 && !take_counted(&from, 2, &signature)))
        return 0;
    *change = (arpki_tls_bytes){changes->at, changes->len - from.len};
    *changes = from;
    return 1;
}

uint64_t arpki_tls_epoch_of(arpki_tls_bytes confirmation)
{
    arpki_tls_bytes from = confirmation;
    const uint8_t *head;
    uint64_t epoch;
    return take(&from, 4, &head) && take_number(&from, 8, &epoch) ? epoch : 0;
}

/* Notes that a party signed by the key of a generation; of one party the newest stays. */
static void note_signer(arpki_tls_generation *signers, size_t *len, uint8_t role, uint64_t number, arpki_tls_bytes signature)
{
    uint64_t generation;
    size_t i = 0;
    if (!take_number(&signature, 4, &generation))
        return;
    while (i < *len && !(signers[i].role == role && signers[i].number == number))
        i++;
    if (i == ARPKI_TLS_MOST_SIGNERS)
        return;
    if (i == *len)
        signers[(*len)++] = (arpki_tls_generation){role, (uint16_t)number, (uint32_t)generation};
    else if (signers[i].generation < generation)
        signers[i].generation = (uint32_t)generation;
}

/* Passes over what stands before a confirmation's signatures. */
static int pass_fields(arpki_tls_bytes *from)
{
    const uint8_t *at;
    arpki_tls_bytes part;
    uint64_t form, foot, steps;
    return take(from, 1, &at) && at[0] == 12 && take_number(from, 1, &form) && take(from, 10, &at) && take_counted(from, 1, &part)
           && take(from, 32, &at)
           && (form == 1 ? take_counted(from, 2, &part)
                         : form == 2 && take_number(from, 1, &foot) && foot <= 1 && take(from, foot ? 64 : 0, &at))
           && take_number(from, 2, &steps) && take(from, 32 * (size_t)steps, &at);
}

size_t arpki_tls_signers(arpki_tls_bytes confirmation, arpki_tls_bytes links,
                         arpki_tls_generation signers[ARPKI_TLS_MOST_SIGNERS])
{
    arpki_tls_bytes from = confirmation, signature, change, certificate;
    uint64_t number, count;
    size_t len = 0;
    if (!pass_fields(&from))
        return 0;
    for (unsigned i = 0; i < 3; i++) {
        if (!take_number(&from, 2, &number) || !take_counted(&from, 2, &signature))
            return 0;
        note_signer(signers, &len, i == 0 ? 1 : 2, number, signature);
    }
    while (arpki_tls_next_change(&links, &change, &certificate)) {
        arpki_tls_bytes in = {certificate.at + certificate.len, change.len - certificate.len - 2};
        if (!take_number(&in, 1, &count))
            break;
        while (count-- != 0 && take_number(&in, 2, &number) && take_counted(&in, 2, &signature))
            note_signer(signers, &len, 2, number, signature);
    }
    return len;
}

int arpki_tls_newest(const uint8_t *pin, size_t len, uint8_t digest[ARPKI_TLS_DIGEST])
{
    arpki_tls_bytes ahead = {pin, len}, change, certificate = {NOTHING, 0};
    static const uint8_t tag[1] = {0x10};
    EVP_MD_CTX *hash;
    int done;
    if (len == 0)
        return 0;
    while (ahead.len != 0)
        if (!arpki_tls_next_change(&ahead, &change, &certificate))
            return 0;
    hash = EVP_MD_CTX_new();
    done = hash != NULL && EVP_DigestInit_ex(hash, EVP_sha256(), NULL) && EVP_DigestUpdate(hash, tag, 1)
           && EVP_DigestUpdate(hash, certificate.at, certificate.len) && EVP_DigestFinal_ex(hash, digest, NULL);
    EVP_MD_CTX_free(hash);
    return done;
}

/* ---- names and keys */

/* Whether a name's last label is a number: then it is an address, and no name of a host. */
static int is_address(const char *name)
{
    const char *last = strrchr(name, '.');
    last = last == NULL ? name : last + 1;
    return strspn(last, "0123456789") == strlen(last);
}

int arpki_tls_read_name(const char *host, char out[254])
{
    size_t len = strlen(host), label = 0;
    if (len != 0 && host[len - 1] == '.')
        len--;
    if (len == 0 || len > 253)
        return 0;
    for (size_t i = 0; i < len; i++) {
        char c = host[i];
        if (c >= 'A' && c <= 'Z')
            c = (char)(c - 'A' + 'a');
        int plain = (c >= 'a' && c <= 'z') || (c >= '0' && c <= '9');
        if (c == '.' ? label == 0 || out[i - 1] == '-' : !(plain || (c == '-' && label != 0)) || label == 63)
            return 0;
        label = c == '.' ? 0 : label + 1;
        out[i] = c;
    }
    out[len] = 0;
    return label != 0 && out[len - 1] != '-' && !is_address(out);
}

int arpki_tls_channel(X509 *certificate, uint8_t channel[ARPKI_TLS_DIGEST])
{
    unsigned char *der = NULL;
    int len = certificate == NULL ? 0 : i2d_X509_PUBKEY(X509_get_X509_PUBKEY(certificate), &der);
    int done = len > 0 && EVP_Digest(der, (size_t)len, channel, NULL, EVP_sha256(), NULL);
    OPENSSL_free(der);
    return done;
}

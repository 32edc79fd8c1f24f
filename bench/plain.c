/* A plain reader of block files, with no proof: what the program is measured beside.
 *
 *   plain scan FILE SCRIPT..      the history of the scripts (hexadecimal), as `scan` writes it
 *   plain filters FILE            the last block's hash, filter and filter header, as `filter` writes them
 *   plain match FILE COUNT        how many of the chain's filters match COUNT scripts that nothing pays
 *   plain make FILE SEED BLOCKS   writes a made chain, as `make SEED BLOCKS FILE` does
 *
 * It takes legacy transactions and checks what a good chain needs: parents, bits, work, Merkle roots, coinbases and coins.
 * SHA-256 is scalar. Numbers are little-endian, as on the processors that this is measured on.
 */
#include <stdint.h>
#include <stdio.h>
#include <stdlib.h>
#include <string.h>

typedef uint8_t u8;
typedef uint32_t u32;
typedef uint64_t u64;

static void refuse(const char *why, u32 record) {
    fprintf(stderr, "record %u: %s\n", record, why);
    exit(3);
}

/* SHA-256 (FIPS 180-4) */

static const u32 K[64] = {
    0x428a2f98, 0x71374491, 0xb5c0fbcf, 0xe9b5dba5, 0x3956c25b, 0x59f111f1, 0x923f82a4, 0xab1c5ed5, 0xd807aa98, 0x12835b01, 0x243185be, 0x550c7dc3, 0x72be5d74,
    0x80deb1fe, 0x9bdc06a7, 0xc19bf174, 0xe49b69c1, 0xefbe4786, 0x0fc19dc6, 0x240ca1cc, 0x2de92c6f, 0x4a7484aa, 0x5cb0a9dc, 0x76f988da, 0x983e5152, 0xa831c66d,
    0xb00327c8, 0xbf597fc7, 0xc6e00bf3, 0xd5a79147, 0x06ca6351, 0x14292967, 0x27b70a85, 0x2e1b2138, 0x4d2c6dfc, 0x53380d13, 0x650a7354, 0x766a0abb, 0x81c2c92e,
    0x92722c85, 0xa2bfe8a1, 0xa81a664b, 0xc24b8b70, 0xc76c51a3, 0xd192e819, 0xd6990624, 0xf40e3585, 0x106aa070, 0x19a4c116, 0x1e376c08, 0x2748774c, 0x34b0bcb5,
    0x391c0cb3, 0x4ed8aa4a, 0x5b9cca4f, 0x682e6ff3, 0x748f82ee, 0x78a5636f, 0x84c87814, 0x8cc70208, 0x90befffa, 0xa4506ceb, 0xbef9a3f7, 0xc67178f2};

static u32 turn(u32 x, int n) { return x >> n | x << (32 - n); }

static void mix(u32 *h, const u8 *p) {
    u32 w[64], a = h[0], b = h[1], c = h[2], d = h[3], e = h[4], f = h[5], g = h[6], l = h[7];
    for (int i = 0; i < 16; i++) w[i] = (u32)p[4 * i] << 24 | p[4 * i + 1] << 16 | p[4 * i + 2] << 8 | p[4 * i + 3];
    for (int i = 16; i < 64; i++) {
        u32 x = w[i - 15], y = w[i - 2];
        w[i] = w[i - 16] + (turn(x, 7) ^ turn(x, 18) ^ x >> 3) + w[i - 7] + (turn(y, 17) ^ turn(y, 19) ^ y >> 10);
    }
    for (int i = 0; i < 64; i++) {
        u32 t = l + (turn(e, 6) ^ turn(e, 11) ^ turn(e, 25)) + ((e & f) ^ (~e & g)) + K[i] + w[i];
        u32 s = (turn(a, 2) ^ turn(a, 13) ^ turn(a, 22)) + ((a & b) ^ (a & c) ^ (b & c));
        l = g, g = f, f = e, e = d + t, d = c, c = b, b = a, a = t + s;
    }
    h[0] += a, h[1] += b, h[2] += c, h[3] += d, h[4] += e, h[5] += f, h[6] += g, h[7] += l;
}

static void sha256(const u8 *p, size_t n, u8 *out) {
    u32 h[8] = {0x6a09e667, 0xbb67ae85, 0x3c6ef372, 0xa54ff53a, 0x510e527f, 0x9b05688c, 0x1f83d9ab, 0x5be0cd19};
    u8 last[128] = {0};
    size_t whole = n / 64 * 64, rest = n - whole, end = rest < 56 ? 64 : 128;
    for (size_t i = 0; i < whole; i += 64) mix(h, p + i);
    memcpy(last, p + whole, rest);
    last[rest] = 0x80;
    for (int i = 0; i < 8; i++) last[end - 1 - i] = (u8)((u64)n * 8 >> (8 * i));
    for (size_t i = 0; i < end; i += 64) mix(h, last + i);
    for (int i = 0; i < 8; i++)
        for (int j = 0; j < 4; j++) out[4 * i + j] = (u8)(h[i] >> (24 - 8 * j));
}

static void hash(const u8 *p, size_t n, u8 *out) {
    u8 once[32];
    sha256(p, n, once);
    sha256(once, 32, out);
}

/* Bytes that are read in turn */

typedef struct {
    const u8 *at, *end;
    u32 record;
} Cut;

static const u8 *take(Cut *c, u64 n) {
    if ((u64)(c->end - c->at) < n) refuse("short", c->record);
    const u8 *p = c->at;
    c->at += n;
    return p;
}

static u64 number(Cut *c, int n) {
    u64 x = 0;
    memcpy(&x, take(c, n), n);
    return x;
}

static u64 compact(Cut *c) {
    u64 x = number(c, 1), least = 0;
    if (x == 0xfd) x = number(c, 2), least = 253;
    else if (x == 0xfe) x = number(c, 4), least = 65536;
    else if (x == 0xff) x = number(c, 8), least = (u64)1 << 32;
    if (x < least || x > 33554432) refuse("number", c->record);
    return x;
}

/* Coins: a table with open addresses, by txid and index */

typedef struct {
    u8 txid[32];
    u32 index, length;
    const u8 *script;
    u64 value;
    int state; /* 0 never used, 1 there, 2 taken out */
} Coin;

static Coin *coins;
static size_t room, used;

static size_t slot(const u8 *txid, u32 index) {
    u64 x;
    memcpy(&x, txid, 8);
    return (x ^ index * 0x9e3779b97f4a7c15u) & (room - 1);
}

static Coin *find(const u8 *txid, u32 index) {
    for (size_t i = slot(txid, index);; i = (i + 1) & (room - 1)) {
        if (coins[i].state == 0) return NULL;
        if (coins[i].state == 1 && coins[i].index == index && memcmp(coins[i].txid, txid, 32) == 0) return &coins[i];
    }
}

static void put(Coin coin) {
    size_t i = slot(coin.txid, coin.index);
    while (coins[i].state == 1) i = (i + 1) & (room - 1);
    used += coins[i].state == 0;
    coins[i] = coin;
}

static void grow(void) {
    if (used * 2 < room) return;
    Coin *old = coins;
    size_t n = room;
    room = room ? room * 2 : 1024;
    coins = calloc(room, sizeof *coins);
    used = 0;
    for (size_t i = 0; i < n; i++)
        if (old[i].state == 1) put(old[i]);
    free(old);
}

/* Watched scripts, in order */

typedef struct {
    const u8 *bytes;
    size_t length;
} Script;

static Script *watched;
static size_t watched_count;

static int by_bytes(const void *x, const void *y) {
    const Script *a = x, *b = y;
    int c = memcmp(a->bytes, b->bytes, a->length < b->length ? a->length : b->length);
    return c ? c : (a->length > b->length) - (a->length < b->length);
}

static int is_watched(const u8 *p, size_t n) {
    Script s = {p, n};
    return watched_count && bsearch(&s, watched, watched_count, sizeof s, by_bytes) != NULL;
}

/* Filters (BIP 158) */

static u64 spin(u64 x, int n) { return x << n | x >> (64 - n); }

static void sip_round(u64 *v) {
    v[0] += v[1], v[1] = spin(v[1], 13) ^ v[0], v[0] = spin(v[0], 32);
    v[2] += v[3], v[3] = spin(v[3], 16) ^ v[2];
    v[0] += v[3], v[3] = spin(v[3], 21) ^ v[0];
    v[2] += v[1], v[1] = spin(v[1], 17) ^ v[2], v[2] = spin(v[2], 32);
}

static u64 sip(u64 k0, u64 k1, const u8 *p, size_t n) {
    u64 v[4] = {k0 ^ 0x736f6d6570736575, k1 ^ 0x646f72616e646f6d, k0 ^ 0x6c7967656e657261, k1 ^ 0x7465646279746573}, m;
    size_t i = 0;
    for (; i + 8 <= n; i += 8) {
        memcpy(&m, p + i, 8);
        v[3] ^= m, sip_round(v), sip_round(v), v[0] ^= m;
    }
    m = (u64)n << 56;
    for (size_t j = 0; i + j < n; j++) m |= (u64)p[i + j] << (8 * j);
    v[3] ^= m, sip_round(v), sip_round(v), v[0] ^= m;
    v[2] ^= 0xff;
    for (int j = 0; j < 4; j++) sip_round(v);
    return v[0] ^ v[1] ^ v[2] ^ v[3];
}

static int by_number(const void *x, const void *y) {
    u64 a = *(const u64 *)x, b = *(const u64 *)y;
    return (a > b) - (a < b);
}

static void values(const u8 *block, const Script *items, size_t count, u64 n, u64 *out) {
    u64 k[2];
    memcpy(k, block, 16);
    for (size_t i = 0; i < count; i++) out[i] = (u64)((unsigned __int128)sip(k[0], k[1], items[i].bytes, items[i].length) * (n * 784931) >> 64);
    qsort(out, count, sizeof *out, by_number);
}

static size_t put_compact(u8 *out, u64 n) {
    if (n < 253) return out[0] = (u8)n, 1;
    if (n < 65536) return out[0] = 0xfd, memcpy(out + 1, &n, 2), 3;
    return out[0] = 0xfe, memcpy(out + 1, &n, 4), 5;
}

typedef struct {
    u8 *bytes;
    size_t length;
    u8 block[32];
} Filter;

static Filter build(const u8 *block, Script *items, size_t count) {
    size_t n = 0;
    qsort(items, count, sizeof *items, by_bytes);
    for (size_t i = 0; i < count; i++)
        if (i == 0 || by_bytes(&items[i], &items[i - 1])) items[n++] = items[i];
    u64 *v = malloc((n + 1) * sizeof *v);
    values(block, items, n, n, v);
    Filter f = {calloc(16 + 4 * n, 1), 0, {0}};
    memcpy(f.block, block, 32);
    f.length = put_compact(f.bytes, n);
    u64 bit = f.length * 8, before = 0;
    for (size_t i = 0; i < n; i++) {
        u64 d = v[i] - before;
        before = v[i];
        for (u64 q = d >> 19; q; q--, bit++) f.bytes[bit / 8] |= 0x80 >> bit % 8;
        bit++;
        for (int j = 18; j >= 0; j--, bit++) f.bytes[bit / 8] |= (d >> j & 1) * (0x80 >> bit % 8);
    }
    f.length = (bit + 7) / 8;
    free(v);
    return f;
}

static int matches(const Filter *f, const Script *scripts, size_t count, u64 *queries) {
    Cut c = {f->bytes, f->bytes + f->length, 0};
    u64 n = compact(&c), value = 0, bit = 0;
    size_t at = 0;
    int hit = 0;
    values(f->block, scripts, count, n, queries);
    for (u64 i = 0; i < n; i++) {
        u64 low = 0;
        for (; c.at[bit / 8] & 0x80 >> bit % 8; bit++) value += 1 << 19;
        bit++;
        for (int j = 0; j < 19; j++, bit++) low = low << 1 | ((c.at[bit / 8] & 0x80 >> bit % 8) != 0);
        value += low;
        while (at < count && queries[at] < value) at++;
        hit |= at < count && queries[at] == value;
    }
    return hit;
}

/* The chain */

static u64 balance;
static int show_history, make_filters, match_filters;
static Script items[200000];
static size_t item_count;
static Filter *filters;

static void show(const u8 *h) {
    for (int i = 31; i >= 0; i--) printf("%02x", h[i]);
}

static void transaction(Cut *c, u32 height, int first, u8 *txid) {
    Cut scan = *c;
    const u8 *start = c->at;
    u64 spent = 0, received = 0, n;
    take(&scan, 4);
    n = compact(&scan);
    if (n == 0) refuse("no input", c->record);
    const u8 *inputs = scan.at;
    for (u64 i = 0; i < n; i++) {
        take(&scan, 36);
        take(&scan, compact(&scan));
        take(&scan, 4);
    }
    u64 outs = compact(&scan);
    if (outs == 0) refuse("no output", c->record);
    const u8 *outputs = scan.at;
    for (u64 i = 0; i < outs; i++) {
        if (number(&scan, 8) > 2100000000000000) refuse("value", c->record);
        take(&scan, compact(&scan));
    }
    take(&scan, 4);
    size_t length = scan.at - start;
    if (length == 64) refuse("64 bytes", c->record);
    hash(start, length, txid);
    static const u8 none[32];
    int coinbase = n == 1 && memcmp(inputs, none, 32) == 0 && memcmp(inputs + 32, "\xff\xff\xff\xff", 4) == 0;
    if (coinbase != first) refuse("coinbase", c->record);
    Cut in = {inputs, scan.at, c->record};
    for (u64 i = 0; !coinbase && i < n; i++) {
        const u8 *name = take(&in, 32);
        Coin *coin = find(name, (u32)number(&in, 4));
        take(&in, compact(&in));
        take(&in, 4);
        if (!coin) refuse("missing", c->record);
        coin->state = 2;
        if (make_filters && coin->length) items[item_count++] = (Script){coin->script, coin->length};
        if (is_watched(coin->script, coin->length)) spent += coin->value;
    }
    Cut out = {outputs, scan.at, c->record};
    int pays = 0;
    for (u64 i = 0; i < outs; i++) {
        Coin coin = {.index = (u32)i, .state = 1};
        coin.value = number(&out, 8);
        coin.length = (u32)compact(&out);
        coin.script = take(&out, coin.length);
        memcpy(coin.txid, txid, 32);
        if (make_filters && coin.length && coin.script[0] != 0x6a) items[item_count++] = (Script){coin.script, coin.length};
        if (height == 0) continue;
        grow();
        if (find(txid, (u32)i)) refuse("exists", c->record);
        put(coin);
        if (is_watched(coin.script, coin.length)) received += coin.value, pays = 1;
    }
    if (show_history && (pays || spent)) {
        balance += received - spent;
        printf("%u ", height);
        show(txid);
        printf(" +%llu -%llu %llu\n", (unsigned long long)received, (unsigned long long)spent, (unsigned long long)balance);
    }
    *c = scan;
}

static void root(u8 (*level)[32], size_t n, u8 *out, u32 record) {
    while (n > 1) {
        for (size_t i = 0; i < n; i += 2) {
            u8 both[64];
            if (i + 1 < n && memcmp(level[i], level[i + 1], 32) == 0) refuse("mutated", record);
            memcpy(both, level[i], 32);
            memcpy(both + 32, level[i + 1 < n ? i + 1 : i], 32);
            hash(both, 64, level[i / 2]);
        }
        n = (n + 1) / 2;
    }
    memcpy(out, level[0], 32);
}

static u8 previous_header[32];

static void block(Cut *c, u32 height, const u8 *parent, u8 *name) {
    static u8 txids[20000][32];
    static const u8 limit[32] = {[29] = 0xff, [30] = 0xff, [31] = 0x7f};
    const u8 *header = take(c, 80);
    u8 merkle[32];
    if (memcmp(header + 4, parent, 32)) refuse("parent", c->record);
    if (memcmp(header + 72, "\xff\xff\x7f\x20", 4)) refuse("bits", c->record);
    hash(header, 80, name);
    for (int i = 31; i >= 0 && name[i] >= limit[i]; i--)
        if (name[i] > limit[i]) refuse("work", c->record);
    u64 n = compact(c);
    if (n == 0 || n > 20000) refuse("transactions", c->record);
    item_count = 0;
    for (u64 i = 0; i < n; i++) transaction(c, height, i == 0, txids[i]);
    if (c->at != c->end) refuse("rest", c->record);
    root(txids, n, merkle, c->record);
    if (memcmp(header + 36, merkle, 32)) refuse("root", c->record);
    if (make_filters) {
        u8 both[64];
        Filter f = build(name, items, item_count);
        hash(f.bytes, f.length, both);
        memcpy(both + 32, previous_header, 32);
        hash(both, 64, previous_header);
        filters[height] = f;
    }
}

static const char GENESIS[] =
    "0100000000000000000000000000000000000000000000000000000000000000000000003ba3edfd7a7b12b27ac72c3e67768f617fc81bc3888a51323a9fb8aa4b1e5e4adae5494dffff7f2002"
    "0000000101000000010000000000000000000000000000000000000000000000000000000000000000ffffffff4d04ffff001d0104455468652054696d65732030332f4a616e2f3230303920"
    "4368616e63656c6c6f72206f6e206272696e6b206f66207365636f6e64206261696c6f757420666f722062616e6b73ffffffff0100f2052a01000000434104678afdb0fe5548271967f1a671"
    "30b7105cd6a828e03909a67962e0ea1f61deb649f6bc3f4cef38c4f35504e51ec112de5c384df7ba0b8d578a4c702b6bf11d5fac00000000";

static size_t bytes_of(const char *hex, u8 *out) {
    size_t n = strlen(hex) / 2;
    for (size_t i = 0; i < n; i++) sscanf(hex + 2 * i, "%2hhx", &out[i]);
    return n;
}

/* Made chains */

static u8 *put_number(u8 *at, u64 x, int n) {
    memcpy(at, &x, n);
    return at + n;
}

static u8 *put_output(u8 *at, u64 value, u64 k) {
    at = put_number(at, value, 8);
    *at++ = 4, *at++ = 1, *at++ = k % 16, *at++ = 0x75, *at++ = 0x51;
    return at;
}

static u8 *put_coinbase(u8 *at, u64 seed, u32 height) {
    at = put_number(at, 1, 4), *at++ = 1;
    memset(at, 0, 32), at = put_number(at + 32, 0xffffffff, 4);
    *at++ = 14, *at++ = 4, at = put_number(at, height, 4), *at++ = 8, at = put_number(at, seed, 8);
    at = put_number(at, 0xffffffff, 4), *at++ = 1;
    return put_number(put_output(at, 5000000000, seed + height), 0, 4);
}

static u8 *put_spending(u8 *at, u64 turn, const u8 *coin) {
    at = put_number(at, 1, 4), *at++ = 1;
    memcpy(at, coin, 32), at = put_number(at + 32, 0, 4);
    *at++ = 0, at = put_number(at, 0xffffffff, 4), *at++ = 2;
    return put_number(put_output(put_output(at, 2000000000, turn + 5), 3000000000, turn + 11), 0, 4);
}

static int make(const char *name, u64 seed, u32 blocks) {
    static const u8 magic[] = {0xfa, 0xbf, 0xb5, 0xda};
    FILE *file = fopen(name, "wb");
    u8 genesis[sizeof GENESIS / 2], tip[32], coin[32], ids[2][32];
    if (!file) return 4;
    bytes_of(GENESIS, genesis);
    hash(genesis, 80, tip);
    for (u32 height = 1; height <= blocks; height++) {
        u8 record[512], *header = record + 8, *at = header + 81;
        int spends = height > 1 && (seed + height) % 3 == 0;
        u8 *next = put_coinbase(at, seed, height);
        hash(at, next - at, ids[0]);
        header[80] = 1 + spends;
        if (spends) {
            at = next, next = put_spending(at, seed + height, coin);
            hash(at, next - at, ids[1]);
        }
        memcpy(coin, ids[0], 32);
        put_number(header, 4, 4);
        memcpy(header + 4, tip, 32);
        if (spends) hash(ids[0], 64, header + 36);
        else memcpy(header + 36, ids[0], 32);
        put_number(put_number(header + 68, 1296688602 + 600 * height, 4), 0x207fffff, 4);
        u32 nonce = 0;
        do {
            if (nonce == 65536) return 5;
            put_number(header + 76, nonce++, 4);
            hash(header, 80, tip);
        } while (tip[31] >= 0x80 || (tip[31] == 0x7f && tip[30] == 0xff && tip[29] == 0xff && memcmp(tip, (u8[29]){0}, 29)));
        memcpy(record, magic, 4);
        put_number(record + 4, next - header, 4);
        fwrite(record, 1, next - record, file);
    }
    return fclose(file) ? 4 : 0;
}

int main(int argc, char **argv) {
    if (argc < 3) return 2;
    if (strcmp(argv[1], "make") == 0) return argc < 5 ? 2 : make(argv[2], strtoull(argv[3], NULL, 10), (u32)strtoul(argv[4], NULL, 10));
    show_history = strcmp(argv[1], "scan") == 0;
    match_filters = strcmp(argv[1], "match") == 0;
    make_filters = !show_history;
    if (show_history) {
        watched = calloc(argc, sizeof *watched);
        for (int i = 3; i < argc; i++) {
            u8 *bytes = malloc(strlen(argv[i]));
            watched[watched_count++] = (Script){bytes, bytes_of(argv[i], bytes)};
        }
        qsort(watched, watched_count, sizeof *watched, by_bytes);
    }
    FILE *file = fopen(argv[2], "rb");
    if (!file) return 4;
    fseek(file, 0, SEEK_END);
    size_t size = ftell(file);
    rewind(file);
    u8 *data = malloc(size + 1);
    if (fread(data, 1, size, file) != size) return 4;
    filters = calloc(size / 88 + 2, sizeof *filters);
    grow();

    static u8 first[285];
    u8 tip[32] = {0}, name[32];
    Cut genesis = {first, first + bytes_of(GENESIS, first), 0};
    block(&genesis, 0, tip, name);
    memcpy(tip, name, 32);
    u32 height = 0, record = 1;
    Cut c = {data, data + size, record};
    while (c.at < c.end) {
        size_t zeros = 0;
        while (c.at + zeros < c.end && c.at[zeros] == 0) zeros++;
        if (c.at + zeros == c.end) break;
        c.record = record++;
        if (memcmp(take(&c, 4), "\xfa\xbf\xb5\xda", 4)) refuse("magic", c.record);
        u64 length = number(&c, 4);
        if (length > 1000000) refuse("too long", c.record);
        const u8 *at = take(&c, length);
        Cut inner = {at, at + length, c.record};
        if (c.record == 1 && length == 285 && memcmp(at, first, 285) == 0) continue;
        block(&inner, ++height, tip, name);
        memcpy(tip, name, 32);
    }
    if (show_history) {
        printf("synced %u ", height);
        show(tip);
        printf("\n");
    } else if (match_filters) {
        size_t count = argc > 3 ? strtoul(argv[3], NULL, 10) : 1, hits = 0;
        Script *scripts = calloc(count, sizeof *scripts);
        u64 *queries = calloc(count, sizeof *queries);
        for (size_t i = 0; i < count; i++) {
            u8 *bytes = malloc(25);
            memset(bytes, 0x51, 25);
            memcpy(bytes, &i, sizeof i);
            scripts[i] = (Script){bytes, 25};
        }
        for (u32 h = 0; h <= height; h++) hits += matches(&filters[h], scripts, count, queries);
        printf("%zu of %u\n", hits, height + 1);
    } else {
        printf("block ");
        show(tip);
        printf("\nfilter ");
        for (size_t i = 0; i < filters[height].length; i++) printf("%02x", filters[height].bytes[i]);
        printf("\nheader ");
        show(previous_header);
        printf("\n");
    }
    return 0;
}

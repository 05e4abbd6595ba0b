// The C SQLite library doing what uahist's store does: the tables of docs/FORMATS.md, WAL, synchronous FULL,
// prepared statements.
//   cpeer DB OP ..     (DB a path, or :memory:)   prints "OP wall cpu" a line
// fill:N[:random]  N inserts, a commit each, by the statements of uahist (2 queries, 3 writes)
// plain:N[:random] the same by 3 upserts group:N:B        N inserts, B a commit        append:K middle:K
// replace:K delete:K    one value a commit at a store that holds N replace1:K       K updates of one moment
// deleteraw:FROM:K  deletes of K live values found by a query page:K:WHERE:DIR K pages of 1,000
// (first|middle|last, f|b), each encoded as HistoryData bytes     modpage:K:WHERE:DIR whole            all
// values page by page      latest:K       decodeless: K times the last value of the node judge walk the
// records, decode, check currents and vectors in one ordered pass    sqljudge  uahist's own statements dump
// lines as uahist's to /dev/null     size  bytes of the file
#include <sqlite3.h>
#include <stdint.h>
#include <stdio.h>
#include <stdlib.h>
#include <string.h>
#include <time.h>
typedef long long ll;
static sqlite3 *db;
static const ll FIRST = 116444736000000000LL;
static const unsigned char T[] = {3, 1, 0, 1, 0, 0, 0, 'T'};
static ll held = 0, tick = 116444736000000000LL;
static int spaced = 10;
static double now(clockid_t c) {
    struct timespec t;
    clock_gettime(c, &t);
    return t.tv_sec + t.tv_nsec / 1e9;
}
static void die(const char *w) {
    fprintf(stderr, "%s: %s\n", w, sqlite3_errmsg(db));
    exit(1);
}
static void run(const char *s) {
    if (sqlite3_exec(db, s, 0, 0, 0))
        die(s);
}
static sqlite3_stmt *prep(const char *s) {
    sqlite3_stmt *p;
    if (sqlite3_prepare_v2(db, s, -1, &p, 0))
        die(s);
    return p;
}
static void done(sqlite3_stmt *p, const char *w) {
    int r = sqlite3_step(p);
    if (r != SQLITE_DONE && r != SQLITE_ROW)
        die(w);
    sqlite3_reset(p);
}
static sqlite3_stmt *qv, *qf, *irec, *icur, *rcur, *uvec, *ivec, *beg, *com, *ucur, *rep_cur,
    *rep_vec, *at;
static void ready(void) {
    qv = prep("SELECT origin, number, tick FROM vectors WHERE origin = ?1");
    qf = prep("SELECT origin FROM records2 WHERE node = ?1 AND time = ?2 AND pico = ?3 LIMIT 1");
    irec = prep("INSERT INTO records2 VALUES (?1, ?2, ?3, ?4, ?5, ?6, ?7, ?8, ?9)");
    icur = prep("INSERT INTO currents2 VALUES (?1, ?2, ?3, ?4, ?5, ?6 <> 4, 0, ?7)");
    rcur = prep("UPDATE currents2 SET tick = ?4, origin = ?5, live = ?6 <> 4, extra = 1, value = ?7 WHERE "
                "node = ?1 AND time = ?2 AND pico = ?3 AND tick <= ?4 AND (tick < ?4 OR origin < ?5)");
    uvec = prep("UPDATE vectors SET origin = ?1, number = ?2, tick = ?3 WHERE origin = ?1");
    ivec = prep("INSERT INTO vectors VALUES (?1, ?2, ?3)");
    rep_cur = prep("INSERT INTO currents2 VALUES (?1, ?2, ?3, ?4, ?5, ?6 <> 4, 0, ?7) ON CONFLICT (node, "
                   "time, pico) DO UPDATE SET tick=excluded.tick, origin=excluded.origin, "
                   "live=excluded.live, extra=1, value=excluded.value WHERE excluded.tick > tick");
    rep_vec = prep("INSERT OR REPLACE INTO vectors VALUES (?1, ?2, ?3)");
    at = prep("SELECT origin, number, tick, node, time, pico, asked, who, value FROM records2 WHERE node = "
              "?1 AND time = ?2 AND pico = ?3 ORDER BY tick, origin");
    beg = prep("BEGIN");
    com = prep("COMMIT");
}
static void key(sqlite3_stmt *p, int n, ll time) {
    sqlite3_bind_blob(p, n, T, 8, SQLITE_STATIC);
    sqlite3_bind_int64(p, n + 1, time);
    sqlite3_bind_int64(p, n + 2, 0);
}
static void learn(ll time, int asked, int mode, int txn) { // mode 0 as uahist, 1 upserts
    unsigned char v[6] = {1, 6};
    uint32_t x = (uint32_t)held;
    memcpy(v + 2, &x, 4);
    int nv = asked == 4 ? 1 : 6;
    if (asked == 4)
        v[0] = 0;
    int first = 1;
    ll number = held + 1;
    tick++;
    if (!mode) {
        key(at, 1, time);
        while (sqlite3_step(at) == SQLITE_ROW)
            ;
        sqlite3_reset(at); // the update's own look at what is live
        sqlite3_bind_int(qv, 1, 1);
        sqlite3_step(qv);
        sqlite3_reset(qv);
        key(qf, 1, time);
        first = sqlite3_step(qf) != SQLITE_ROW;
        sqlite3_reset(qf);
    }
    if (txn)
        done(beg, "begin");
    sqlite3_bind_int(irec, 1, 1);
    sqlite3_bind_int64(irec, 2, number);
    sqlite3_bind_int64(irec, 3, tick);
    key(irec, 4, time);
    sqlite3_bind_int(irec, 7, asked);
    sqlite3_bind_blob(irec, 8, "anonymous", 9, SQLITE_STATIC);
    sqlite3_bind_blob(irec, 9, v, nv, SQLITE_STATIC);
    done(irec, "record");
    sqlite3_stmt *c = mode ? rep_cur : first ? icur : rcur;
    key(c, 1, time);
    sqlite3_bind_int64(c, 4, tick);
    sqlite3_bind_int(c, 5, 1);
    sqlite3_bind_int(c, 6, asked);
    sqlite3_bind_blob(c, 7, v, nv, SQLITE_STATIC);
    done(c, "current");
    sqlite3_stmt *w = mode ? rep_vec : uvec;
    sqlite3_bind_int(w, 1, 1);
    sqlite3_bind_int64(w, 2, number);
    sqlite3_bind_int64(w, 3, tick);
    done(w, "vector");
    if (!mode && sqlite3_changes(db) == 0) {
        sqlite3_bind_int(ivec, 1, 1);
        sqlite3_bind_int64(ivec, 2, number);
        sqlite3_bind_int64(ivec, 3, tick);
        done(ivec, "vector");
    }
    if (txn)
        done(com, "commit");
    held = number;
}
static ll *order(ll n, int random) {
    ll *o = malloc(n * sizeof *o);
    for (ll k = 0; k < n; k++)
        o[k] = k;
    uint64_t s = 88172645463325252ULL;
    if (random)
        for (ll k = n - 1; k > 0; k--) {
            s ^= s << 13;
            s ^= s >> 7;
            s ^= s << 17;
            ll j = s % (k + 1);
            ll t = o[k];
            o[k] = o[j];
            o[j] = t;
        }
    return o;
}
static unsigned char out[1 << 20];
static unsigned long long sum;
static ll times(void) {
    sqlite3_stmt *p = prep("SELECT count(*) FROM currents2");
    sqlite3_step(p);
    ll n = sqlite3_column_int64(p, 0);
    sqlite3_finalize(p);
    return n;
}
static int page(sqlite3_stmt *p, ll from, ll to, int count,
                ll *last) { // answers values written; HistoryData items
    key(p, 1, from);
    sqlite3_bind_int64(p, 3, to);
    sqlite3_bind_int(p, 4, count + 1);
    int n = 0;
    size_t o = 0;
    while (sqlite3_step(p) == SQLITE_ROW) {
        if (n == count) {
            n++;
            break;
        }
        ll t = sqlite3_column_int64(p, 0);
        int pico = sqlite3_column_int(p, 1);
        int extra = sqlite3_column_int(p, 2);
        const unsigned char *v = sqlite3_column_blob(p, 3);
        int l = sqlite3_column_bytes(p, 3);
        out[o] = v[0] | 4 | (extra ? 2 : 0);
        memcpy(out + o + 1, v + 1, l - 1);
        o += l;
        if (extra) {
            uint32_t st = 0x408;
            memcpy(out + o, &st, 4);
            o += 4;
        }
        memcpy(out + o, &t, 8);
        o += 8;
        (void)pico;
        *last = t;
        n++;
    }
    sqlite3_reset(p);
    sum += out[o / 2] + n;
    return n;
}
static const char *FWD = "SELECT time, pico, extra, value FROM currents2 WHERE node = ?1 AND time >= ?2 AND "
                         "time <= ?3 AND live = 1 ORDER BY time, pico LIMIT ?4";
static const char *BWD = "SELECT time, pico, extra, value FROM currents2 WHERE node = ?1 AND time <= ?2 AND "
                         "time >= ?3 AND live = 1 ORDER BY time DESC, pico DESC LIMIT ?4";
static int modpage(sqlite3_stmt *p, ll from, ll to,
                   int count) { // entries: value shown is that of the record before it at the same moment
    key(p, 1, from);
    sqlite3_bind_int64(p, 3, to);
    int n = 0;
    size_t o = 0, i = 0;
    static unsigned char info[1 << 20];
    ll before = -1;
    unsigned char bv[300];
    int bl = 0;
    while (n <= count && sqlite3_step(p) == SQLITE_ROW) {
        ll t = sqlite3_column_int64(p, 4);
        const unsigned char *v = sqlite3_column_blob(p, 8);
        int l = sqlite3_column_bytes(p, 8);
        ll tk = sqlite3_column_int64(p, 2);
        int asked = sqlite3_column_int(p, 6);
        const unsigned char *who = sqlite3_column_blob(p, 7);
        int wl = sqlite3_column_bytes(p, 7);
        const unsigned char *s = v;
        int sl = l;
        if (t == before && bl) {
            s = bv;
            sl = bl;
        }
        if (n < count) {
            out[o] = s[0] | 4;
            memcpy(out + o + 1, s + 1, sl - 1);
            o += sl;
            memcpy(out + o, &t, 8);
            o += 8;
            memcpy(info + i, &tk, 8);
            memcpy(info + i + 8, &asked, 4);
            memcpy(info + i + 12, &wl, 4);
            memcpy(info + i + 16, who, wl);
            i += 16 + wl;
        }
        before = t;
        memcpy(bv, v, l < 300 ? l : 300);
        bl = l;
        n++;
    }
    sqlite3_reset(p);
    sum += out[o / 2] + info[i / 2] + n;
    return n;
}
static void judge(void) {
    sqlite3_stmt *p = prep("SELECT origin, number, tick, node, time, pico, asked, who, value FROM records2 "
                           "ORDER BY origin, number");
    ll o0 = 0, n0 = 0, t0 = 0, n = 0;
    ll vec[65] = {0}, vt[65] = {0};
    while (sqlite3_step(p) == SQLITE_ROW) {
        for (int c = 0; c < 9; c++) {
            int ty = sqlite3_column_type(p, c);
            if (ty != ((c == 3 || c == 7 || c == 8) ? SQLITE_BLOB : SQLITE_INTEGER))
                exit(3);
        }
        ll o = sqlite3_column_int64(p, 0), k = sqlite3_column_int64(p, 1), t = sqlite3_column_int64(p, 2),
           tm = sqlite3_column_int64(p, 4), pi = sqlite3_column_int64(p, 5), as = sqlite3_column_int64(p, 6);
        if (o < 1 || o > 64 || tm < 1 || pi < 0 || pi > 9999 || as < 1 || as > 4 || t < 1)
            exit(3);
        const unsigned char *nd = sqlite3_column_blob(p, 3);
        int nl = sqlite3_column_bytes(p, 3);
        if (nl < 2 || nd[0] > 5)
            exit(3);
        if (nd[0] == 3) {
            int32_t len;
            memcpy(&len, nd + 3, 4);
            if (len + 7 != nl)
                exit(3);
            for (int q = 7; q < nl; q++)
                if (nd[q] >= 128)
                    exit(3);
        }
        const unsigned char *w = sqlite3_column_blob(p, 7);
        int wl = sqlite3_column_bytes(p, 7);
        if (wl > 256)
            exit(3);
        for (int q = 0; q < wl; q++)
            if (w[q] >= 128)
                exit(3);
        const unsigned char *v = sqlite3_column_blob(p, 8);
        int l = sqlite3_column_bytes(p, 8);
        if (as == 4 ? (l != 1 || v[0]) : (l != 6 || v[0] != 1 || v[1] != 6))
            exit(3);
        if (o == o0 ? (k != n0 + 1 || t <= t0) : (o < o0 || k != 1))
            exit(3);
        o0 = o;
        n0 = k;
        t0 = t;
        vec[o] = k;
        vt[o] = t;
        n++;
    }
    sqlite3_finalize(p);
    p = prep("SELECT node, time, pico, tick, origin, asked, value FROM records2 ORDER BY node, time, pico, "
             "tick, origin");
    sqlite3_stmt *c = prep(
        "SELECT node, time, pico, tick, origin, live, extra, value FROM currents2 ORDER BY node, time, pico");
    ll cur = 0;
    int more = sqlite3_step(p) == SQLITE_ROW;
    unsigned char node[300];
    int nl = 0;
    unsigned char val[4096];
    int vl = 0;
    while (more) {
        ll t = sqlite3_column_int64(p, 1), pi = sqlite3_column_int64(p, 2), tk = 0, og = 0, as = 0;
        nl = sqlite3_column_bytes(p, 0);
        memcpy(node, sqlite3_column_blob(p, 0), nl);
        int cnt = 0;
        do {
            tk = sqlite3_column_int64(p, 3);
            og = sqlite3_column_int64(p, 4);
            as = sqlite3_column_int64(p, 5);
            vl = sqlite3_column_bytes(p, 6);
            memcpy(val, sqlite3_column_blob(p, 6), vl);
            cnt++;
            more = sqlite3_step(p) == SQLITE_ROW;
        } while (more && sqlite3_column_int64(p, 1) == t && sqlite3_column_int64(p, 2) == pi &&
                 sqlite3_column_bytes(p, 0) == nl && !memcmp(sqlite3_column_blob(p, 0), node, nl));
        if (sqlite3_step(c) != SQLITE_ROW)
            exit(4);
        if (sqlite3_column_bytes(c, 0) != nl || memcmp(sqlite3_column_blob(c, 0), node, nl) ||
            sqlite3_column_int64(c, 1) != t || sqlite3_column_int64(c, 2) != pi ||
            sqlite3_column_int64(c, 3) != tk || sqlite3_column_int64(c, 4) != og ||
            sqlite3_column_int64(c, 5) != (as != 4) || sqlite3_column_int64(c, 6) != (cnt > 1) ||
            sqlite3_column_bytes(c, 7) != vl || memcmp(sqlite3_column_blob(c, 7), val, vl))
            exit(5);
        cur++;
    }
    if (sqlite3_step(c) != SQLITE_DONE)
        exit(6);
    sqlite3_finalize(p);
    sqlite3_finalize(c);
    p = prep("SELECT origin, number, tick FROM vectors ORDER BY origin");
    while (sqlite3_step(p) == SQLITE_ROW) {
        ll o = sqlite3_column_int64(p, 0);
        if (vec[o] != sqlite3_column_int64(p, 1) || vt[o] != sqlite3_column_int64(p, 2))
            exit(7);
        vec[o] = 0;
    }
    sqlite3_finalize(p);
    for (int o = 0; o < 65; o++)
        if (vec[o])
            exit(8);
    sum += n + cur;
}
static void walk_all(const char *s) {
    sqlite3_stmt *p = prep(s);
    while (sqlite3_step(p) == SQLITE_ROW)
        sum += sqlite3_column_int64(p, 0);
    sqlite3_finalize(p);
}
static void sqljudge(void) {
    walk_all("SELECT origin, number, tick, node, time, pico, asked, who, value FROM records2 ORDER BY "
             "origin, number");
    walk_all(
        "SELECT r.origin FROM records2 AS r WHERE NOT EXISTS (SELECT 1 FROM records2 AS s WHERE s.node = "
        "r.node AND s.time = r.time AND s.pico = r.pico AND s.tick >= r.tick AND (s.tick > r.tick OR "
        "s.origin > r.origin)) AND NOT EXISTS (SELECT 1 FROM currents2 AS c WHERE c.node = r.node AND c.time "
        "= r.time AND c.pico = r.pico AND c.tick = r.tick AND c.origin = r.origin AND c.live = (r.asked <> "
        "4) AND c.extra = EXISTS (SELECT 1 FROM records2 AS s WHERE s.node = r.node AND s.time = r.time AND "
        "s.pico = r.pico AND (s.tick <> r.tick OR s.origin <> r.origin)) AND c.value = r.value) LIMIT 1");
    walk_all("SELECT r.rowid FROM records2 AS r WHERE NOT EXISTS (SELECT 1 FROM records2 AS s WHERE s.node = "
             "r.node AND s.time = r.time AND s.pico = r.pico AND s.tick >= r.tick AND (s.tick > r.tick OR "
             "s.origin > r.origin)) ORDER BY r.rowid");
    walk_all("SELECT rowid FROM currents2 ORDER BY rowid");
    walk_all("SELECT r.origin FROM records2 AS r WHERE NOT EXISTS (SELECT 1 FROM records2 AS s WHERE "
             "s.origin = r.origin AND s.number > r.number) AND NOT EXISTS (SELECT 1 FROM vectors AS v WHERE "
             "v.origin = r.origin AND v.number = r.number AND v.tick = r.tick) LIMIT 1");
    walk_all("SELECT r.rowid FROM records2 AS r WHERE NOT EXISTS (SELECT 1 FROM records2 AS s WHERE s.origin "
             "= r.origin AND s.number > r.number) ORDER BY r.rowid");
    walk_all("SELECT origin FROM vectors ORDER BY origin");
}
static void dump(void) {
    FILE *f = fopen("/dev/null", "w");
    sqlite3_stmt *p = prep("SELECT origin, number, tick, node, time, pico, asked, who, value FROM records2 "
                           "ORDER BY origin, number");
    static const char H[] = "0123456789ABCDEF";
    char line[8192];
    unsigned char r[4096];
    while (sqlite3_step(p) == SQLITE_ROW) {
        size_t l = 0;
        ll x;
        r[l++] = 2;
        r[l++] = sqlite3_column_int(p, 0);
        x = sqlite3_column_int64(p, 1);
        memcpy(r + l, &x, 8);
        l += 8;
        x = sqlite3_column_int64(p, 2);
        memcpy(r + l, &x, 8);
        l += 8;
        int b = sqlite3_column_bytes(p, 3);
        memcpy(r + l, sqlite3_column_blob(p, 3), b);
        l += b;
        x = sqlite3_column_int64(p, 4);
        memcpy(r + l, &x, 8);
        l += 8;
        x = sqlite3_column_int(p, 5);
        memcpy(r + l, &x, 2);
        l += 2;
        r[l++] = sqlite3_column_int(p, 6);
        b = sqlite3_column_bytes(p, 7);
        memcpy(r + l, &b, 4);
        l += 4;
        memcpy(r + l, sqlite3_column_blob(p, 7), b);
        l += b;
        b = sqlite3_column_bytes(p, 8);
        memcpy(r + l, sqlite3_column_blob(p, 8), b);
        l += b;
        size_t o = 0;
        for (size_t k = 0; k < l; k++) {
            line[o++] = H[r[k] >> 4];
            line[o++] = H[r[k] & 15];
        }
        fprintf(f, "%lld %lld %lld ", (ll)r[1], sqlite3_column_int64(p, 1), sqlite3_column_int64(p, 2));
        fwrite(line, 1, o, f);
        fputc('\n', f);
    }
    sqlite3_finalize(p);
    fclose(f);
}
int main(int argc, char **argv) {
    if (argc < 3)
        return 2;
    if (sqlite3_open(argv[1], &db))
        die("open");
    run("PRAGMA page_size=1024; PRAGMA journal_mode=WAL; PRAGMA synchronous=FULL; PRAGMA "
        "locking_mode=EXCLUSIVE;");
    sqlite3_stmt *q = prep("SELECT count(*) FROM sqlite_master");
    sqlite3_step(q);
    int any = sqlite3_column_int(q, 0);
    sqlite3_finalize(q);
    if (!any)
        run("CREATE TABLE meta (one INTEGER PRIMARY KEY CHECK (one = 1), format INTEGER NOT NULL,\n  archive "
            "BLOB NOT NULL, replica INTEGER NOT NULL) STRICT;"
            "CREATE TABLE records2 (origin INTEGER NOT NULL, number INTEGER NOT NULL, tick INTEGER NOT NULL, "
            "node BLOB NOT NULL, time INTEGER NOT NULL, pico INTEGER NOT NULL, asked INTEGER NOT NULL, who "
            "BLOB NOT NULL, value BLOB NOT NULL, PRIMARY KEY (origin, number), UNIQUE (node, time, pico, "
            "tick, origin)) STRICT;"
            "CREATE TABLE currents2 (node BLOB NOT NULL, time INTEGER NOT NULL, pico INTEGER NOT NULL, tick "
            "INTEGER NOT NULL, origin INTEGER NOT NULL, live INTEGER NOT NULL, extra INTEGER NOT NULL, value "
            "BLOB NOT NULL, PRIMARY KEY (node, time, pico)) STRICT;"
            "CREATE TABLE vectors (origin INTEGER PRIMARY KEY, number INTEGER NOT NULL, tick INTEGER NOT "
            "NULL) STRICT;");
    ready();
    q = prep("SELECT number, tick FROM vectors WHERE origin = 1");
    if (sqlite3_step(q) == SQLITE_ROW) {
        held = sqlite3_column_int64(q, 0);
        tick = sqlite3_column_int64(q, 1);
    }
    sqlite3_finalize(q);
    ll middle = 0;
    for (int a = 2; a < argc; a++) {
        char w[100];
        snprintf(w, 100, "%s", argv[a]);
        char *f[5] = {0};
        int nf = 0;
        for (char *s = strtok(w, ":"); s && nf < 5; s = strtok(0, ":"))
            f[nf++] = s;
        ll n = nf > 1 ? atoll(f[1]) : 0;
        double b = now(CLOCK_MONOTONIC), c = now(CLOCK_PROCESS_CPUTIME_ID);
        ll N = 0;
        if (strcmp(f[0], "fill") && strcmp(f[0], "plain") && strcmp(f[0], "group")) {
            N = times();
            b = now(CLOCK_MONOTONIC), c = now(CLOCK_PROCESS_CPUTIME_ID);
        }
        if (!strcmp(f[0], "fill") || !strcmp(f[0], "plain")) {
            ll *o = order(n, nf > 2 && !strcmp(f[2], "random"));
            for (ll k = 0; k < n; k++)
                learn(FIRST + spaced * o[k], 3, f[0][0] == 'p', 1);
            free(o);
        } else if (!strcmp(f[0], "group")) {
            ll B = atoll(f[2]);
            for (ll k = 0; k < n; k++) {
                if (k % B == 0)
                    done(beg, "b");
                learn(FIRST + spaced * k, 3, 0, 0);
                if (k % B == B - 1 || k == n - 1)
                    done(com, "c");
            }
        } else if (!strcmp(f[0], "append"))
            for (ll k = 0; k < n; k++)
                learn(FIRST + spaced * N + spaced * k, 3, 0, 1);
        else if (!strcmp(f[0], "middle"))
            for (ll k = 0; k < n; k++)
                learn(FIRST + spaced * (N / 2) + 5 + spaced * k + (middle++ > 0 ? 0 : 0), 3, 0, 1);
        else if (!strcmp(f[0], "replace"))
            for (ll k = 0; k < n; k++)
                learn(FIRST + spaced * (N / 4) + spaced * k, 2, 0, 1);
        else if (!strcmp(f[0], "replace1"))
            for (ll k = 0; k < n; k++)
                learn(FIRST, 3, 0, 1);
        else if (!strcmp(f[0], "delete"))
            for (ll k = 0; k < n; k++)
                learn(FIRST + spaced * (N / 8) + spaced * k, 4, 0, 1);
        else if (!strcmp(f[0], "deleteraw")) {
            ll *t = malloc(8 * n);
            sqlite3_stmt *p = prep(FWD);
            key(p, 1, FIRST + spaced * n);
            sqlite3_bind_int64(p, 3, FIRST + spaced * (N / 2));
            sqlite3_bind_int64(p, 4, n);
            ll m = 0;
            while (m < n && sqlite3_step(p) == SQLITE_ROW)
                t[m++] = sqlite3_column_int64(p, 0);
            sqlite3_finalize(p);
            for (ll k = 0; k < m; k++)
                learn(t[k], 4, 0, 1);
            free(t);
        } else if (!strcmp(f[0], "deletelast"))
            for (ll k = 0; k < n; k++)
                learn(FIRST + spaced * (N - n) + spaced * k, 4, 0, 1);
        else if (!strcmp(f[0], "page")) {
            int bw = f[3][0] == 'b';
            sqlite3_stmt *p = prep(bw ? BWD : FWD);
            ll pos = !strcmp(f[2], "first") ? 0 : !strcmp(f[2], "middle") ? N / 2 : N - 1001;
            ll from = FIRST + spaced * pos, to = FIRST + spaced * N, last;
            if (bw) {
                from = FIRST + spaced * (N - 1 - pos);
                to = FIRST;
            }
            for (ll k = 0; k < n; k++)
                page(p, from, to, 1000, &last);
            sqlite3_finalize(p);
        } else if (!strcmp(f[0], "pagex")) { // the very statement of uahist, its four columns
            sqlite3_stmt *p =
                prep("SELECT time, pico, extra, value FROM currents2 WHERE node = ?1 AND time >= ?2 AND "
                     "(time > ?2 OR pico > ?3) AND time <= ?4 AND (time < ?4 OR pico <= ?5) AND live = 1 "
                     "ORDER BY time, pico LIMIT ?6");
            for (ll k = 0; k < n; k++) {
                sqlite3_bind_blob(p, 1, T, 8, SQLITE_STATIC);
                sqlite3_bind_int64(p, 2, FIRST + spaced * (N / 2));
                sqlite3_bind_int(p, 3, -1);
                sqlite3_bind_int64(p, 4, FIRST + spaced * N);
                sqlite3_bind_int(p, 5, 9999);
                sqlite3_bind_int(p, 6, 1001);
                size_t o = 0;
                while (sqlite3_step(p) == SQLITE_ROW) {
                    ll t = sqlite3_column_int64(p, 0);
                    const unsigned char *v = sqlite3_column_blob(p, 3);
                    int l = sqlite3_column_bytes(p, 3);
                    out[o] = v[0] | 4;
                    memcpy(out + o + 1, v + 1, l - 1);
                    o += l;
                    memcpy(out + o, &t, 8);
                    o += 8;
                }
                sum += o;
                sqlite3_reset(p);
            }
            sqlite3_finalize(p);
        } else if (!strcmp(f[0], "whole")) {
            sqlite3_stmt *p = prep(FWD);
            ll from = FIRST, last = 0, got = 0;
            int m;
            do {
                m = page(p, from, FIRST + spaced * N, 1000, &last);
                got += m > 1000 ? 1000 : m;
                from = last + 1;
            } while (m > 1000);
            sqlite3_finalize(p);
            sum += got;
        } else if (!strcmp(f[0], "modpage")) {
            int bw = f[3][0] == 'b';
            sqlite3_stmt *p =
                prep(bw ? "SELECT origin, number, tick, node, time, pico, asked, who, value FROM records2 "
                          "WHERE node = ?1 AND time <= ?2 AND time >= ?3 ORDER BY time DESC, pico DESC, tick "
                          "DESC, origin DESC"
                        : "SELECT origin, number, tick, node, time, pico, asked, who, value FROM records2 "
                          "WHERE node = ?1 AND time >= ?2 AND time <= ?3 ORDER BY time, pico, tick, origin");
            ll pos = !strcmp(f[2], "first") ? 0 : !strcmp(f[2], "middle") ? N / 2 : N - 1001;
            ll from = FIRST + spaced * pos, to = FIRST + spaced * N;
            if (bw) {
                from = FIRST + spaced * (N - 1 - pos);
                to = FIRST;
            }
            for (ll k = 0; k < n; k++)
                modpage(p, from, to, 1000);
            sqlite3_finalize(p);
        } else if (!strcmp(f[0], "latest")) {
            sqlite3_stmt *p = prep(BWD);
            ll last;
            for (ll k = 0; k < n; k++)
                page(p, INT64_MAX, 1, 1, &last);
            sqlite3_finalize(p);
        } else if (!strcmp(f[0], "meta"))
            run("INSERT INTO meta VALUES (1, 2, zeroblob(16), 1)");
        else if (!strcmp(f[0], "checkpoint"))
            run("PRAGMA wal_checkpoint(TRUNCATE)");
        else if (!strcmp(f[0], "judge"))
            judge();
        else if (!strcmp(f[0], "sqljudge"))
            sqljudge();
        else if (!strcmp(f[0], "dump"))
            dump();
        else {
            fprintf(stderr, "no such op %s\n", f[0]);
            return 2;
        }
        printf("%s %.6f %.6f\n", argv[a], now(CLOCK_MONOTONIC) - b, now(CLOCK_PROCESS_CPUTIME_ID) - c);
        fflush(stdout);
    }
    if (sum == 1)
        puts("");
    return 0; // no close: a close would checkpoint
}

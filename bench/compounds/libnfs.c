/* Makes the arguments and the results of three compounds each with the codec of libnfs, and times how it decodes and encodes
   them.
   usage: libnfs FILE [N]    (FILE: where they are written, for the other program; N: the rounds are one Nth) */
#include <stdio.h>
#include <stdlib.h>
#include <string.h>
#include <sys/time.h>
#include <time.h>
#include <nfsc/libnfs-zdr.h>
#include <nfsc/libnfs.h>
#include <nfsc/libnfs-raw.h>
#include <nfsc/libnfs-raw-nfs4.h>

#define RUNS 3
static uint32_t part = 1;
static char encoded[1 << 17];
static char payload[65536];
static uint32_t words[2] = {0, 2};
static char mode[4] = {0, 0, 1, (char)0xa4};
static stateid4 stateid = {7, {0, 0, 0, 3, 0, 0, 0, 0, 0, 0, 0, 9}};

static double now(void) {
    struct timespec t;
    clock_gettime(CLOCK_MONOTONIC, &t);
    return t.tv_sec * 1e9 + t.tv_nsec;
}

/* What is timed: arguments or results. */
enum kind { ARGS, RESULTS };

static int encode(enum kind kind, void *value, char *to, size_t size) {
    ZDR zdr;
    libnfs_zdrmem_create(&zdr, to, size, ZDR_ENCODE);
    if (!(kind == ARGS ? zdr_COMPOUND4args(&zdr, value) : zdr_COMPOUND4res(&zdr, value))) exit(1);
    int len = zdr.pos;
    libnfs_zdr_destroy(&zdr);
    return len;
}

/* Decodes what is encoded, and tells how many operations there are. */
static unsigned decode_args(int len) {
    COMPOUND4args read;
    ZDR zdr;
    memset(&read, 0, sizeof read);
    libnfs_zdrmem_create(&zdr, encoded, len, ZDR_DECODE);
    if (!zdr_COMPOUND4args(&zdr, &read)) exit(1);
    unsigned count = read.argarray.argarray_len;
    libnfs_zdr_destroy(&zdr);
    return count;
}

static unsigned decode_results(int len) {
    COMPOUND4res read;
    ZDR zdr;
    memset(&read, 0, sizeof read);
    libnfs_zdrmem_create(&zdr, encoded, len, ZDR_DECODE);
    if (!zdr_COMPOUND4res(&zdr, &read)) exit(1);
    unsigned count = read.resarray.resarray_len;
    libnfs_zdr_destroy(&zdr);
    return count;
}

static void put(FILE *file, uint32_t n) {
    unsigned char b[4] = {n >> 24, n >> 16, n >> 8, n};
    fwrite(b, 1, 4, file);
}

/* The middle of three runs, the least and the greatest. */
static void line(const char *name, double *took, uint32_t rounds) {
    double least = took[0], most = took[0], sum = 0;
    for (int run = 0; run < RUNS; run++) {
        if (took[run] < least) least = took[run];
        if (took[run] > most) most = took[run];
        sum += took[run];
    }
    printf("  %s: %.0f ns (%.0f to %.0f)\n", name, (sum - least - most) / rounds, least / rounds, most / rounds);
}

static void time_one(FILE *file, enum kind kind, void *value, uint32_t rounds) {
    rounds /= part;
    int len = encode(kind, value, encoded, sizeof encoded);
    put(file, kind);
    put(file, rounds);
    put(file, len);
    fwrite(encoded, 1, len, file);
    double took[2][RUNS];
    unsigned long sum = 0;
    for (int run = 0; run < RUNS; run++) {
        double start = now();
        for (uint32_t i = 0; i < rounds; i++)
            sum += kind == ARGS ? decode_args(len) : decode_results(len);
        took[0][run] = now() - start;
        start = now();
        for (uint32_t i = 0; i < rounds; i++) {
            char *to = malloc(len);
            sum += encode(kind, value, to, len);
            free(to);
        }
        took[1][run] = now() - start;
    }
    printf("%d bytes\n", len);
    line("read", took[0], rounds);
    line("written", took[1], rounds);
    fprintf(stderr, "%lu\n", sum);
}

static void time_args(FILE *file, nfs_argop4 *ops, int count, uint32_t rounds) {
    COMPOUND4args args;
    memset(&args, 0, sizeof args);
    args.argarray.argarray_len = count;
    args.argarray.argarray_val = ops;
    time_one(file, ARGS, &args, rounds);
}

static void time_results(FILE *file, nfs_resop4 *ops, int count, uint32_t rounds) {
    COMPOUND4res results;
    memset(&results, 0, sizeof results);
    results.resarray.resarray_len = count;
    results.resarray.resarray_val = ops;
    time_one(file, RESULTS, &results, rounds);
}

static void all_args(FILE *file) {
    nfs_argop4 ops[4];
    memset(ops, 0, sizeof ops);
    ops[0].argop = OP_PUTFH;
    ops[0].nfs_argop4_u.opputfh.object.nfs_fh4_len = 16;
    ops[0].nfs_argop4_u.opputfh.object.nfs_fh4_val = "0123456789abcdef";

    ops[1].argop = OP_OPEN;
    OPEN4args *open = &ops[1].nfs_argop4_u.opopen;
    open->seqid = 4;
    open->share_access = 3;
    open->owner.clientid = 5;
    open->owner.owner.owner_len = 8;
    open->owner.owner.owner_val = "C1/owner";
    open->openhow.opentype = OPEN4_CREATE;
    open->openhow.openflag4_u.how.mode = UNCHECKED4;
    open->openhow.openflag4_u.how.createhow4_u.createattrs.attrmask.bitmap4_len = 2;
    open->openhow.openflag4_u.how.createhow4_u.createattrs.attrmask.bitmap4_val = words;
    open->openhow.openflag4_u.how.createhow4_u.createattrs.attr_vals.attrlist4_len = 4;
    open->openhow.openflag4_u.how.createhow4_u.createattrs.attr_vals.attrlist4_val = mode;
    open->claim.claim = CLAIM_NULL;
    open->claim.open_claim4_u.file.utf8string_len = 8;
    open->claim.open_claim4_u.file.utf8string_val = "file.txt";
    ops[2].argop = OP_GETFH;
    ops[3].argop = OP_GETATTR;
    ops[3].nfs_argop4_u.opgetattr.attr_request.bitmap4_len = 2;
    ops[3].nfs_argop4_u.opgetattr.attr_request.bitmap4_val = words;
    printf("OPEN: arguments, ");
    time_args(file, ops, 4, 100000);

    memset(&ops[1], 0, sizeof ops[1]);
    ops[1].argop = OP_LOCK;
    LOCK4args *lock = &ops[1].nfs_argop4_u.oplock;
    lock->locktype = WRITE_LT;
    lock->offset = 10;
    lock->length = 20;
    lock->locker.new_lock_owner = 1;
    lock->locker.locker4_u.open_owner.open_seqid = 2;
    lock->locker.locker4_u.open_owner.open_stateid = stateid;
    lock->locker.locker4_u.open_owner.lock_seqid = 1;
    lock->locker.locker4_u.open_owner.lock_owner.clientid = 5;
    lock->locker.locker4_u.open_owner.lock_owner.owner.owner_len = 8;
    lock->locker.locker4_u.open_owner.lock_owner.owner.owner_val = "C1/owner";
    printf("LOCK: arguments, ");
    time_args(file, ops, 2, 100000);

    memset(&ops[1], 0, sizeof ops[1]);
    ops[1].argop = OP_WRITE;
    WRITE4args *write = &ops[1].nfs_argop4_u.opwrite;
    write->stateid = stateid;
    write->stable = FILE_SYNC4;
    write->data.data_len = sizeof payload;
    write->data.data_val = payload;
    printf("WRITE of 64 KiB: arguments, ");
    time_args(file, ops, 2, 5000);
}

/* What reading or writing so much data can't do without. */
static void time_copy(uint32_t rounds) {
    double took[RUNS];
    unsigned long sum = 0;
    for (int run = 0; run < RUNS; run++) {
        double start = now();
        for (uint32_t i = 0; i < rounds; i++) {
            char *volatile to = malloc(sizeof payload);
            memcpy(to, payload, sizeof payload);
            sum += to[i % sizeof payload];
            free(to);
        }
        took[run] = now() - start;
    }
    printf("one malloc and copy of 64 KiB\n");
    line("copied", took, rounds);
    fprintf(stderr, "%lu\n", sum);
}

/* Every result is OK. */
static void all_results(FILE *file) {
    nfs_resop4 ops[4];
    memset(ops, 0, sizeof ops);
    ops[0].resop = OP_PUTFH;

    ops[1].resop = OP_OPEN;
    OPEN4resok *open = &ops[1].nfs_resop4_u.opopen.OPEN4res_u.resok4;
    open->stateid = stateid;
    open->cinfo.atomic = 1;
    open->cinfo.before = 5;
    open->cinfo.after = 6;
    open->rflags = OPEN4_RESULT_LOCKTYPE_POSIX;
    open->attrset.bitmap4_len = 2;
    open->attrset.bitmap4_val = words;
    open->delegation.delegation_type = OPEN_DELEGATE_NONE;
    ops[2].resop = OP_GETFH;
    GETFH4resok *getfh = &ops[2].nfs_resop4_u.opgetfh.GETFH4res_u.resok4;
    getfh->object.nfs_fh4_len = 16;
    getfh->object.nfs_fh4_val = "0123456789abcdef";
    ops[3].resop = OP_GETATTR;
    fattr4 *attributes = &ops[3].nfs_resop4_u.opgetattr.GETATTR4res_u.resok4.obj_attributes;
    attributes->attrmask.bitmap4_len = 2;
    attributes->attrmask.bitmap4_val = words;
    attributes->attr_vals.attrlist4_len = 4;
    attributes->attr_vals.attrlist4_val = mode;
    printf("OPEN: results, ");
    time_results(file, ops, 4, 100000);

    memset(&ops[1], 0, sizeof ops[1]);
    ops[1].resop = OP_LOCK;
    ops[1].nfs_resop4_u.oplock.LOCK4res_u.resok4.lock_stateid = stateid;
    printf("LOCK: results, ");
    time_results(file, ops, 2, 100000);

    memset(&ops[1], 0, sizeof ops[1]);
    ops[1].resop = OP_READ;
    READ4resok *read = &ops[1].nfs_resop4_u.opread.READ4res_u.resok4;
    read->eof = 1;
    read->data.data_len = sizeof payload;
    read->data.data_val = payload;
    printf("READ of 64 KiB: results, ");
    time_results(file, ops, 2, 5000);
}

int main(int argc, char **argv) {
    FILE *file = argc == 2 || argc == 3 ? fopen(argv[1], "wb") : NULL;
    if (!file) return 2;
    if (argc == 3) part = atoi(argv[2]);
    all_args(file);
    all_results(file);
    time_copy(5000);
    return fclose(file) ? 1 : 0;
}

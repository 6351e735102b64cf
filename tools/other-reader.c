/* Reads arguments and results of COMPOUND with libnfs' codec and tells their fields, and writes fields that it is told.
 *
 * Each line of standard input is answered by one line:
 *   read args HEX, read results HEX, read callback HEX, read callback-results HEX     the fields, or 'unread'
 *   write args FIELD .., write results FIELD ..                                       the bytes, or 'unwritten'
 * A field is NAME=NUMBER, NAME=HEX or NAME=NUMBER,NUMBER.. for the words of a bitmap, in the order of the bytes. */
#include <stdio.h>
#include <stdlib.h>
#include <string.h>
#include <sys/time.h>
#include <nfsc/libnfs-zdr.h>
#include <nfsc/libnfs.h>
#include <nfsc/libnfs-raw.h>
#include <nfsc/libnfs-raw-nfs4.h>

static int writing;      /* fields are taken from the line, and not told */
static int stopped;      /* a field that is taken isn't there */
static char *rest;       /* what of the line is still to take */

static unsigned digit(char c) { return c <= '9' ? c - '0' : c - 'a' + 10; }

/* The text of the next field, which has to have this name. */
static char *taken(const char *name)
{
    char *text = stopped ? NULL : strsep(&rest, " ");
    size_t size = strlen(name);
    if (!text || strncmp(text, name, size) || text[size] != '=') {
        stopped = 1;
        return "0";
    }
    return text + size + 1;
}

static void hyper(const char *name, uint64_t *n)
{
    if (writing) *n = strtoull(taken(name), NULL, 10);
    else printf(" %s=%llu", name, (unsigned long long)*n);
}

static uint32_t word_of(const char *name, uint32_t n)
{
    uint64_t wide = n;
    hyper(name, &wide);
    return wide;
}

/* A field of any type of 4 bytes. */
#define WORD(name, field) ((field) = word_of(name, field))
#define HYPER(name, field) do { uint64_t n = (field); hyper(name, &n); (field) = n; } while (0)

static void fixed(const char *name, void *bytes, int size)
{
    unsigned char *to = bytes;
    if (!writing) {
        printf(" %s=", name);
        for (int i = 0; i < size; i++) printf("%02x", to[i]);
        return;
    }
    char *text = taken(name);
    for (int i = 0; i < size && !stopped; i++) to[i] = digit(text[2 * i]) << 4 | digit(text[2 * i + 1]);
}

static void opaque(const char *name, u_int *size, char **bytes)
{
    if (!writing) {
        fixed(name, *bytes, *size);
        return;
    }
    char *text = taken(name);
    *size = strlen(text) / 2;
    *bytes = malloc(*size + 1);
    for (u_int i = 0; i < *size; i++) (*bytes)[i] = digit(text[2 * i]) << 4 | digit(text[2 * i + 1]);
    (*bytes)[*size] = 0;
}

#define TEXT(name, t) opaque(name, &(t).utf8string_len, &(t).utf8string_val)
#define HANDLE(name, h) opaque(name, &(h).nfs_fh4_len, &(h).nfs_fh4_val)
#define OWNER(name, o) (opaque(name, &(o).owner.owner_len, &(o).owner.owner_val))

static void string(const char *name, char **text)
{
    u_int size = writing ? 0 : strlen(*text);
    opaque(name, &size, text);
}

/* 8 bytes that nobody looks into, as a number. */
static void verifier(const char *name, char *bytes)
{
    uint64_t n = 0;
    for (int i = 0; i < 8; i++) n = n << 8 | (unsigned char)bytes[i];
    hyper(name, &n);
    for (int i = 7; i >= 0; i--, n >>= 8) bytes[i] = n;
}

static void bitmap(const char *name, bitmap4 *b)
{
    if (!writing) {
        printf(" %s=", name);
        for (u_int i = 0; i < b->bitmap4_len; i++) printf(i ? ",%u" : "%u", b->bitmap4_val[i]);
        return;
    }
    char *text = taken(name), *number;
    b->bitmap4_len = 0;
    b->bitmap4_val = calloc(16, 4);
    while (*text && (number = strsep(&text, ","))) {
        b->bitmap4_val[b->bitmap4_len++] = strtoul(number, NULL, 10);
        if (!text) break;
    }
}

static void attributes(const char *name, fattr4 *f)
{
    char inner[64];
    bitmap(name, &f->attrmask);
    sprintf(inner, "%s.values", name);
    opaque(inner, &f->attr_vals.attrlist4_len, &f->attr_vals.attrlist4_val);
}

static void stateid(const char *name, stateid4 *s)
{
    unsigned char all[16] = {s->seqid >> 24, s->seqid >> 16, s->seqid >> 8, s->seqid};
    memcpy(all + 4, s->other, 12);
    fixed(name, all, 16);
    s->seqid = (uint32_t)all[0] << 24 | all[1] << 16 | all[2] << 8 | all[3];
    memcpy(s->other, all + 4, 12);
}

static void create(CREATE4args *a)
{
    WORD("objtype", a->objtype.type);
    if (a->objtype.type == NF4BLK || a->objtype.type == NF4CHR) {
        WORD("specdata1", a->objtype.createtype4_u.devdata.specdata1);
        WORD("specdata2", a->objtype.createtype4_u.devdata.specdata2);
    } else if (a->objtype.type == NF4LNK) {
        TEXT("linkdata", a->objtype.createtype4_u.linkdata);
    }
    TEXT("name", a->objname);
    attributes("createattrs", &a->createattrs);
}

static void lock(LOCK4args *a)
{
    open_to_lock_owner4 *o = &a->locker.locker4_u.open_owner;
    exist_lock_owner4 *k = &a->locker.locker4_u.lock_owner;
    WORD("locktype", a->locktype);
    WORD("reclaim", a->reclaim);
    HYPER("offset", a->offset);
    HYPER("length", a->length);
    WORD("new", a->locker.new_lock_owner);
    if (a->locker.new_lock_owner) {
        WORD("open_seqid", o->open_seqid);
        stateid("stateid", &o->open_stateid);
        WORD("lock_seqid", o->lock_seqid);
        HYPER("clientid", o->lock_owner.clientid);
        OWNER("owner", o->lock_owner);
    } else {
        stateid("stateid", &k->lock_stateid);
        WORD("lock_seqid", k->lock_seqid);
    }
}

static void how(openflag4 *h)
{
    createhow4 *c = &h->openflag4_u.how;
    WORD("opentype", h->opentype);
    if (h->opentype != OPEN4_CREATE) return;
    WORD("createmode", c->mode);
    if (c->mode == EXCLUSIVE4) verifier("createverf", c->createhow4_u.createverf);
    else attributes("createattrs", &c->createhow4_u.createattrs);
}

static void open_file(OPEN4args *a)
{
    WORD("seqid", a->seqid);
    WORD("share_access", a->share_access);
    WORD("share_deny", a->share_deny);
    HYPER("clientid", a->owner.clientid);
    OWNER("owner", a->owner);
    how(&a->openhow);
    WORD("claim", a->claim.claim);
    switch (a->claim.claim) {
    case CLAIM_NULL: TEXT("file", a->claim.open_claim4_u.file); break;
    case CLAIM_PREVIOUS: WORD("delegate_type", a->claim.open_claim4_u.delegate_type); break;
    case CLAIM_DELEGATE_CUR:
        stateid("delegate_stateid", &a->claim.open_claim4_u.delegate_cur_info.delegate_stateid);
        TEXT("file", a->claim.open_claim4_u.delegate_cur_info.file);
        break;
    default: TEXT("file", a->claim.open_claim4_u.file_delegate_prev);
    }
}

static void set_clientid(SETCLIENTID4args *a)
{
    verifier("verifier", a->client.verifier);
    opaque("id", &a->client.id.id_len, &a->client.id.id_val);
    WORD("cb_program", a->callback.cb_program);
    string("r_netid", &a->callback.cb_location.r_netid);
    string("r_addr", &a->callback.cb_location.r_addr);
    WORD("callback_ident", a->callback_ident);
}

#define U op->nfs_argop4_u
static void argument(nfs_argop4 *op)
{
    WORD("op", op->argop);
    switch (op->argop) {
    case OP_ACCESS: WORD("asked", U.opaccess.access); break;
    case OP_CLOSE: WORD("seqid", U.opclose.seqid), stateid("stateid", &U.opclose.open_stateid); break;
    case OP_COMMIT: HYPER("offset", U.opcommit.offset); WORD("count", U.opcommit.count); break;
    case OP_CREATE: create(&U.opcreate); break;
    case OP_DELEGPURGE: HYPER("clientid", U.opdelegpurge.clientid); break;
    case OP_DELEGRETURN: stateid("stateid", &U.opdelegreturn.deleg_stateid); break;
    case OP_GETATTR: bitmap("attr_request", &U.opgetattr.attr_request); break;
    case OP_LINK: TEXT("name", U.oplink.newname); break;
    case OP_LOCK: lock(&U.oplock); break;
    case OP_LOCKT:
        WORD("locktype", U.oplockt.locktype);
        HYPER("offset", U.oplockt.offset);
        HYPER("length", U.oplockt.length);
        HYPER("clientid", U.oplockt.owner.clientid);
        OWNER("owner", U.oplockt.owner);
        break;
    case OP_LOCKU:
        WORD("locktype", U.oplocku.locktype);
        WORD("unlock_seqid", U.oplocku.seqid);
        stateid("stateid", &U.oplocku.lock_stateid);
        HYPER("offset", U.oplocku.offset);
        HYPER("length", U.oplocku.length);
        break;
    case OP_LOOKUP: TEXT("name", U.oplookup.objname); break;
    case OP_NVERIFY: attributes("attributes", &U.opnverify.obj_attributes); break;
    case OP_OPEN: open_file(&U.opopen); break;
    case OP_OPENATTR: WORD("createdir", U.opopenattr.createdir); break;
    case OP_OPEN_CONFIRM: stateid("stateid", &U.opopen_confirm.open_stateid), WORD("seqid", U.opopen_confirm.seqid); break;
    case OP_OPEN_DOWNGRADE:
        stateid("stateid", &U.opopen_downgrade.open_stateid);
        WORD("seqid", U.opopen_downgrade.seqid);
        WORD("share_access", U.opopen_downgrade.share_access);
        WORD("share_deny", U.opopen_downgrade.share_deny);
        break;
    case OP_PUTFH: HANDLE("object", U.opputfh.object); break;
    case OP_READ: stateid("stateid", &U.opread.stateid); HYPER("offset", U.opread.offset); WORD("count", U.opread.count); break;
    case OP_READDIR:
        HYPER("cookie", U.opreaddir.cookie);
        verifier("cookieverf", U.opreaddir.cookieverf);
        WORD("dircount", U.opreaddir.dircount);
        WORD("maxcount", U.opreaddir.maxcount);
        bitmap("attr_request", &U.opreaddir.attr_request);
        break;
    case OP_REMOVE: TEXT("name", U.opremove.target); break;
    case OP_RENAME: TEXT("oldname", U.oprename.oldname), TEXT("newname", U.oprename.newname); break;
    case OP_RENEW: HYPER("clientid", U.oprenew.clientid); break;
    case OP_SETATTR: stateid("stateid", &U.opsetattr.stateid), attributes("attributes", &U.opsetattr.obj_attributes); break;
    case OP_SETCLIENTID: set_clientid(&U.opsetclientid); break;
    case OP_SETCLIENTID_CONFIRM:
        HYPER("clientid", U.opsetclientid_confirm.clientid);
        verifier("confirm", U.opsetclientid_confirm.setclientid_confirm);
        break;
    case OP_VERIFY: attributes("attributes", &U.opverify.obj_attributes); break;
    case OP_WRITE:
        stateid("stateid", &U.opwrite.stateid);
        HYPER("offset", U.opwrite.offset);
        WORD("stable", U.opwrite.stable);
        opaque("data", &U.opwrite.data.data_len, &U.opwrite.data.data_val);
        break;
    case OP_RELEASE_LOCKOWNER:
        HYPER("clientid", U.oprelease_lockowner.lock_owner.clientid);
        OWNER("owner", U.oprelease_lockowner.lock_owner);
        break;
    default: break;
    }
}
#undef U

static void change(change_info4 *c)
{
    WORD("atomic", c->atomic);
    HYPER("before", c->before);
    HYPER("after", c->after);
}

static void denied(LOCK4denied *d)
{
    HYPER("offset", d->offset);
    HYPER("length", d->length);
    WORD("locktype", d->locktype);
    HYPER("clientid", d->owner.clientid);
    OWNER("owner", d->owner);
}

static void ace(nfsace4 *a)
{
    WORD("acetype", a->type);
    WORD("aceflags", a->flag);
    WORD("acemask", a->access_mask);
    TEXT("who", a->who);
}

static void opened(OPEN4resok *o)
{
    open_write_delegation4 *w = &o->delegation.open_delegation4_u.write;
    open_read_delegation4 *r = &o->delegation.open_delegation4_u.read;
    stateid("stateid", &o->stateid);
    change(&o->cinfo);
    WORD("rflags", o->rflags);
    bitmap("attrset", &o->attrset);
    WORD("delegation", o->delegation.delegation_type);
    if (o->delegation.delegation_type == OPEN_DELEGATE_READ) {
        stateid("delegated", &r->stateid);
        WORD("recall", r->recall);
        ace(&r->permissions);
    } else if (o->delegation.delegation_type == OPEN_DELEGATE_WRITE) {
        stateid("delegated", &w->stateid);
        WORD("recall", w->recall);
        WORD("limitby", w->space_limit.limitby);
        HYPER("filesize", w->space_limit.nfs_space_limit4_u.filesize);
        ace(&w->permissions);
    }
}

static void directory(READDIR4resok *d)
{
    verifier("verifier", d->cookieverf);
    entry4 **next = &d->reply.entries;
    for (;;) {
        uint32_t follows = *next != NULL;
        WORD("follows", follows);
        if (!follows || stopped) break;
        if (writing) *next = calloc(1, sizeof **next);
        HYPER("cookie", (*next)->cookie);
        TEXT("entry", (*next)->name);
        attributes("attributes", &(*next)->attrs);
        next = &(*next)->nextentry;
    }
    WORD("last", d->reply.eof);
}

#define U op->nfs_resop4_u
static void result_ok(nfs_resop4 *op)
{
    switch (op->resop) {
    case OP_ACCESS:
        WORD("supported", U.opaccess.ACCESS4res_u.resok4.supported);
        WORD("access", U.opaccess.ACCESS4res_u.resok4.access);
        break;
    case OP_CLOSE: stateid("stateid", &U.opclose.CLOSE4res_u.open_stateid); break;
    case OP_COMMIT: verifier("writeverf", U.opcommit.COMMIT4res_u.resok4.writeverf); break;
    case OP_CREATE: change(&U.opcreate.CREATE4res_u.resok4.cinfo), bitmap("attrset", &U.opcreate.CREATE4res_u.resok4.attrset); break;
    case OP_GETATTR: attributes("attributes", &U.opgetattr.GETATTR4res_u.resok4.obj_attributes); break;
    case OP_GETFH: HANDLE("object", U.opgetfh.GETFH4res_u.resok4.object); break;
    case OP_LOCK: stateid("stateid", &U.oplock.LOCK4res_u.resok4.lock_stateid); break;
    case OP_LOCKU: stateid("stateid", &U.oplocku.LOCKU4res_u.lock_stateid); break;
    case OP_OPEN: opened(&U.opopen.OPEN4res_u.resok4); break;
    case OP_OPEN_CONFIRM: stateid("stateid", &U.opopen_confirm.OPEN_CONFIRM4res_u.resok4.open_stateid); break;
    case OP_OPEN_DOWNGRADE: stateid("stateid", &U.opopen_downgrade.OPEN_DOWNGRADE4res_u.resok4.open_stateid); break;
    case OP_READ:
        WORD("eof", U.opread.READ4res_u.resok4.eof);
        opaque("data", &U.opread.READ4res_u.resok4.data.data_len, &U.opread.READ4res_u.resok4.data.data_val);
        break;
    case OP_READDIR: directory(&U.opreaddir.READDIR4res_u.resok4); break;
    case OP_REMOVE: change(&U.opremove.REMOVE4res_u.resok4.cinfo); break;
    case OP_SETCLIENTID:
        HYPER("clientid", U.opsetclientid.SETCLIENTID4res_u.resok4.clientid);
        verifier("confirm", U.opsetclientid.SETCLIENTID4res_u.resok4.setclientid_confirm);
        break;
    case OP_WRITE:
        WORD("count", U.opwrite.WRITE4res_u.resok4.count);
        WORD("committed", U.opwrite.WRITE4res_u.resok4.committed);
        verifier("writeverf", U.opwrite.WRITE4res_u.resok4.writeverf);
        break;
    default: break;
    }
}

static void result(nfs_resop4 *op)
{
    WORD("op", op->resop);
    /* the status stands first in every arm */
    WORD("status", U.opillegal.status);
    nfsstat4 status = U.opillegal.status;
    if (op->resop == OP_SETATTR) {
        bitmap("attrset", &U.opsetattr.attrsset);
    } else if (status == NFS4_OK) {
        result_ok(op);
    } else if (status == NFS4ERR_DENIED && (op->resop == OP_LOCK || op->resop == OP_LOCKT)) {
        denied(op->resop == OP_LOCK ? &U.oplock.LOCK4res_u.denied : &U.oplockt.LOCKT4res_u.denied);
    } else if (status == NFS4ERR_CLID_INUSE && op->resop == OP_SETCLIENTID) {
        string("r_netid", &U.opsetclientid.SETCLIENTID4res_u.client_using.r_netid);
        string("r_addr", &U.opsetclientid.SETCLIENTID4res_u.client_using.r_addr);
    }
}
#undef U

static void callback(nfs_cb_argop4 *op)
{
    WORD("op", op->argop);
    if (op->argop == OP_CB_RECALL) {
        stateid("stateid", &op->nfs_cb_argop4_u.opcbrecall.stateid);
        WORD("truncate", op->nfs_cb_argop4_u.opcbrecall.truncate);
        HANDLE("object", op->nfs_cb_argop4_u.opcbrecall.fh);
    } else if (op->argop == OP_CB_GETATTR) {
        HANDLE("object", op->nfs_cb_argop4_u.opcbgetattr.fh);
        bitmap("attr_request", &op->nfs_cb_argop4_u.opcbgetattr.attr_request);
    }
}

/* The fields of all operations of a message. While writing, the count comes first. */
#define EACH(count, values, visit) do { \
        uint32_t n = count; \
        WORD("count", n); \
        if (writing) { (count) = n; (values) = calloc(n + 1, sizeof *(values)); } \
        for (uint32_t i = 0; i < n && !stopped; i++) visit(&(values)[i]); \
    } while (0)

static void visit_args(COMPOUND4args *a)
{
    TEXT("tag", a->tag);
    WORD("minorversion", a->minorversion);
    EACH(a->argarray.argarray_len, a->argarray.argarray_val, argument);
}

static void visit_results(COMPOUND4res *r)
{
    WORD("whole", r->status);
    TEXT("tag", r->tag);
    EACH(r->resarray.resarray_len, r->resarray.resarray_val, result);
}

static void visit_callback(CB_COMPOUND4args *a)
{
    TEXT("tag", a->tag);
    WORD("minorversion", a->minorversion);
    WORD("callback_ident", a->callback_ident);
    EACH(a->argarray.argarray_len, a->argarray.argarray_val, callback);
}

static void callback_result(nfs_cb_resop4 *op)
{
    WORD("op", op->resop);
    WORD("status", op->nfs_cb_resop4_u.opcbillegal.status);
}

static void visit_callback_results(CB_COMPOUND4res *r)
{
    WORD("whole", r->status);
    TEXT("tag", r->tag);
    EACH(r->resarray.resarray_len, r->resarray.resarray_val, callback_result);
}

static char bytes[1 << 21];

/* A message is read to its last byte, and then told; or its fields are taken, and then it is written. */
#define MESSAGE(word, type, codec, visit) \
    if (!strcmp(kind, word)) { \
        type value; \
        memset(&value, 0, sizeof value); \
        if (writing) { \
            visit(&value); \
            libnfs_zdrmem_create(&zdr, bytes, sizeof bytes, ZDR_ENCODE); \
            if (stopped || rest || !codec(&zdr, &value)) { printf("unwritten\n"); return; } \
            for (int i = 0; i < zdr.pos; i++) printf("%02x", (unsigned char)bytes[i]); \
        } else { \
            libnfs_zdrmem_create(&zdr, bytes, size, ZDR_DECODE); \
            if (!codec(&zdr, &value) || zdr.pos != size) printf("unread"); \
            else visit(&value); \
            libnfs_zdr_destroy(&zdr); \
        } \
        printf("\n"); \
        return; \
    }

static void answer(const char *kind)
{
    ZDR zdr;
    int size = 0;
    stopped = 0;
    if (!writing) {
        char *text = strsep(&rest, " ");
        size = strlen(text) / 2;
        for (int i = 0; i < size; i++) bytes[i] = digit(text[2 * i]) << 4 | digit(text[2 * i + 1]);
    }
    MESSAGE("args", COMPOUND4args, zdr_COMPOUND4args, visit_args)
    MESSAGE("results", COMPOUND4res, zdr_COMPOUND4res, visit_results)
    MESSAGE("callback", CB_COMPOUND4args, zdr_CB_COMPOUND4args, visit_callback)
    MESSAGE("callback-results", CB_COMPOUND4res, zdr_CB_COMPOUND4res, visit_callback_results)
    printf("no message\n");
}

int main(void)
{
    char *line = NULL;
    size_t room = 0;
    ssize_t size;
    while ((size = getline(&line, &room, stdin)) > 0) {
        line[size - 1] = 0;
        rest = line;
        writing = !strcmp(strsep(&rest, " "), "write");
        char *kind = strsep(&rest, " ");
        answer(kind);
    }
    return 0;
}

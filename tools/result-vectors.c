/* Results of compounds: a line `let NAME.result HEX`, and a line `results @NAME.result`. */
#include "vectors.h"

static nfs_resop4 op(u_int number, nfsstat4 status)
{
    nfs_resop4 r;
    memset(&r, 0, sizeof r);
    r.resop = number;
    /* the status stands first in every arm */
    r.nfs_resop4_u.opillegal.status = status;
    return r;
}

#define U r->nfs_resop4_u

static const char *status_word(nfsstat4 status)
{
    switch (status) {
    case NFS4_OK: return "Nfs4Ok";
    case NFS4ERR_NOENT: return "NoEnt";
    case NFS4ERR_NOTSUPP: return "NotSupp";
    case NFS4ERR_DENIED: return "Denied";
    case NFS4ERR_CLID_INUSE: return "ClidInUse";
    case NFS4ERR_OP_ILLEGAL: return "OpIllegal";
    default: return "another status";
    }
}

static void told_state(const char *name, stateid4 s)
{
    told("%s(", name);
    told_stateid(s);
    told(")");
}

/* Whether it is atomic is passed over. */
static void told_change(change_info4 c)
{
    told("ChangeInfo { before: %llu, after: %llu }", (unsigned long long)c.before, (unsigned long long)c.after);
}

static void told_denied(LOCK4denied *d)
{
    told("Denied(LockDenied { offset: %llu, length: %llu, kind: %s, clientid: %llu, owner: ", (unsigned long long)d->offset,
        (unsigned long long)d->length, d->locktype == READ_LT || d->locktype == READW_LT ? "Read" : "Write",
        (unsigned long long)d->owner.clientid);
    told_bytes(d->owner.owner.owner_len, d->owner.owner.owner_val);
    told(" })");
}

/* Of a delegation its stateid alone is kept. */
static void told_open(OPEN4resok *o)
{
    told("Open(OpenOk { stateid: ");
    told_stateid(o->stateid);
    told(", cinfo: ");
    told_change(o->cinfo);
    told(", rflags: %u, attrset: ", o->rflags);
    told_bitmap(o->attrset);
    told(", delegation: ");
    if (o->delegation.delegation_type == OPEN_DELEGATE_READ)
        told_state("Read", o->delegation.open_delegation4_u.read.stateid);
    else if (o->delegation.delegation_type == OPEN_DELEGATE_WRITE)
        told_state("Write", o->delegation.open_delegation4_u.write.stateid);
    else
        told("None");
    told(" })");
}

static void told_dir(READDIR4resok *d)
{
    told("ReadDir(ReadDirOk { cookieverf: %llu, entries: Items { items: [", number(d->cookieverf, 8));
    for (entry4 *e = d->reply.entries; e; e = e->nextentry) {
        told("DirEntry { cookie: %llu, name: ", (unsigned long long)e->cookie);
        told_text(e->name);
        told(", attrs: ");
        told_fattr(e->attrs);
        told(e->nextentry ? " }, " : " }");
    }
    told("] }, eof: %s })", d->reply.eof ? "true" : "false");
}

static void told_ok(nfs_resop4 *r)
{
    switch (r->resop) {
    case OP_ACCESS:
        told("Access(AccessOk { supported: %u, access: %u })", U.opaccess.ACCESS4res_u.resok4.supported,
            U.opaccess.ACCESS4res_u.resok4.access);
        break;
    case OP_CLOSE: told_state("Close", U.opclose.CLOSE4res_u.open_stateid); break;
    case OP_COMMIT: told("Commit(%llu)", number(U.opcommit.COMMIT4res_u.resok4.writeverf, 8)); break;
    case OP_CREATE:
        told("Create(CreateOk { cinfo: ");
        told_change(U.opcreate.CREATE4res_u.resok4.cinfo);
        told(", attrset: ");
        told_bitmap(U.opcreate.CREATE4res_u.resok4.attrset);
        told(" })");
        break;
    case OP_GETATTR:
        told("GetAttr(");
        told_fattr(U.opgetattr.GETATTR4res_u.resok4.obj_attributes);
        told(")");
        break;
    case OP_GETFH:
        told("GetFh(");
        told_bytes(U.opgetfh.GETFH4res_u.resok4.object.nfs_fh4_len, U.opgetfh.GETFH4res_u.resok4.object.nfs_fh4_val);
        told(")");
        break;
    case OP_LOCK: told_state("Lock", U.oplock.LOCK4res_u.resok4.lock_stateid); break;
    case OP_LOCKU: told_state("LockU", U.oplocku.LOCKU4res_u.lock_stateid); break;
    case OP_OPEN: told_open(&U.opopen.OPEN4res_u.resok4); break;
    case OP_OPEN_CONFIRM: told_state("OpenConfirm", U.opopen_confirm.OPEN_CONFIRM4res_u.resok4.open_stateid); break;
    case OP_OPEN_DOWNGRADE: told_state("OpenDowngrade", U.opopen_downgrade.OPEN_DOWNGRADE4res_u.resok4.open_stateid); break;
    case OP_READ:
        told("Read(ReadOk { eof: %s, data: ", U.opread.READ4res_u.resok4.eof ? "true" : "false");
        told_bytes(U.opread.READ4res_u.resok4.data.data_len, U.opread.READ4res_u.resok4.data.data_val);
        told(" })");
        break;
    case OP_READDIR: told_dir(&U.opreaddir.READDIR4res_u.resok4); break;
    case OP_REMOVE:
        told("Remove(");
        told_change(U.opremove.REMOVE4res_u.resok4.cinfo);
        told(")");
        break;
    case OP_SETCLIENTID:
        told("SetClientId(SetClientIdOk { clientid: %llu, confirm: %llu })",
            (unsigned long long)U.opsetclientid.SETCLIENTID4res_u.resok4.clientid,
            number(U.opsetclientid.SETCLIENTID4res_u.resok4.setclientid_confirm, 8));
        break;
    case OP_WRITE:
        told("Write(WriteOk { count: %u, committed: %u, writeverf: %llu })", U.opwrite.WRITE4res_u.resok4.count,
            U.opwrite.WRITE4res_u.resok4.committed, number(U.opwrite.WRITE4res_u.resok4.writeverf, 8));
        break;
    default: told("Nothing");
    }
}

static void told_in_use(clientaddr4 *a)
{
    told("ClientInUse(ClientAddress { netid: ");
    told_bytes(strlen(a->r_netid), a->r_netid);
    told(", addr: ");
    told_bytes(strlen(a->r_addr), a->r_addr);
    told(" })");
}

static void told_result(nfs_resop4 *r)
{
    nfsstat4 status = U.opillegal.status;
    told(" %u %s ", r->resop, status_word(status));
    if (r->resop == OP_SETATTR) {
        told("SetAttr(");
        told_bitmap(U.opsetattr.attrsset);
        told(")");
    } else if (status == NFS4_OK) {
        told_ok(r);
    } else if (status == NFS4ERR_DENIED) {
        told_denied(r->resop == OP_LOCK ? &U.oplock.LOCK4res_u.denied : &U.oplockt.LOCKT4res_u.denied);
    } else if (status == NFS4ERR_CLID_INUSE) {
        told_in_use(&U.opsetclientid.SETCLIENTID4res_u.client_using);
    } else {
        told("Nothing");
    }
}
#undef U

static char bytes[65536];

/* How many bytes these results are. */
static int encode(const char *name, nfs_resop4 *ops, u_int count, nfsstat4 status)
{
    ZDR zdr;
    COMPOUND4res res;
    memset(&res, 0, sizeof res);
    res.status = status;
    res.tag.utf8string_val = "tag";
    res.tag.utf8string_len = 3;
    res.resarray.resarray_val = ops;
    res.resarray.resarray_len = count;
    libnfs_zdrmem_create(&zdr, bytes, sizeof bytes, ZDR_ENCODE);
    if (!zdr_COMPOUND4res(&zdr, &res)) {
        fprintf(stderr, "%s isn't encoded\n", name);
        exit(1);
    }
    return zdr.pos;
}

static void print(const char *name, nfs_resop4 *ops, u_int count, nfsstat4 status)
{
    char full[64];
    snprintf(full, sizeof full, "%s.result", name);
    name_bytes(full, bytes, encode(name, ops, count, status));
    line("results @%s\n", full);
    told("%s tag 746167", status_word(status));
    for (u_int i = 0; i < count; i++) told_result(&ops[i]);
}

static void print_one(const char *name, nfs_resop4 r)
{
    print(name, &r, 1, r.nfs_resop4_u.opillegal.status);
    told(" same\n");
}

static stateid4 stateid(u_int seqid)
{
    stateid4 s = {seqid, {0, 0, 0, 3, 0, 0, 0, 0, 0, 0, 1, 4}};
    return s;
}

static change_info4 change(void)
{
    change_info4 c = {1, 5, 6};
    return c;
}

static u_int words[] = {16, 2};
static bitmap4 bitmap(u_int n)
{
    bitmap4 b = {n, words};
    return b;
}

static fattr4 fattr(void)
{
    fattr4 a = {{1, words}, {8, "\0\0\0\0\0\0\0\011"}};
    return a;
}

static nfs_resop4 open_of(open_delegation4 d)
{
    nfs_resop4 r = op(18, NFS4_OK);
    OPEN4resok *o = &r.nfs_resop4_u.opopen.OPEN4res_u.resok4;
    o->stateid = stateid(1);
    o->cinfo = change();
    o->rflags = 6;
    o->attrset = bitmap(2);
    o->delegation = d;
    return r;
}

static nfs_resop4 dir_of(entry4 *entries, int eof)
{
    nfs_resop4 r = op(26, NFS4_OK);
    READDIR4resok *d = &r.nfs_resop4_u.opreaddir.READDIR4res_u.resok4;
    d->reply.entries = entries;
    d->reply.eof = eof;
    return r;
}

/* What is written of results is other bytes: those of another result. */
static void told_again(const char *name, nfs_resop4 r)
{
    int size = encode(name, &r, 1, r.nfs_resop4_u.opillegal.status);
    told(" writes ");
    for (int i = 0; i < size; i++) told("%02x", (unsigned char)bytes[i]);
    told("\n");
}

int main(int argc, char **argv)
{
    begin(argc, argv);
    nfs_resop4 r;
    nfs_resop4 each[40];
    open_delegation4 d;
    entry4 entries[3];
    LOCK4denied denied = {10, 5, WRITE_LT, {258, {4, "C1/a"}}};

    r = op(3, NFS4_OK);
    r.nfs_resop4_u.opaccess.ACCESS4res_u.resok4.supported = 63;
    r.nfs_resop4_u.opaccess.ACCESS4res_u.resok4.access = 31;
    print_one("ACCESS", r);
    r = op(4, NFS4_OK);
    r.nfs_resop4_u.opclose.CLOSE4res_u.open_stateid = stateid(2);
    print_one("CLOSE", r);
    r = op(12, NFS4_OK);
    r.nfs_resop4_u.oplock.LOCK4res_u.resok4.lock_stateid = stateid(2);
    print_one("LOCK", r);
    r = op(14, NFS4_OK);
    r.nfs_resop4_u.oplocku.LOCKU4res_u.lock_stateid = stateid(2);
    print_one("LOCKU", r);
    r = op(20, NFS4_OK);
    r.nfs_resop4_u.opopen_confirm.OPEN_CONFIRM4res_u.resok4.open_stateid = stateid(2);
    print_one("OPEN_CONFIRM", r);
    r = op(21, NFS4_OK);
    r.nfs_resop4_u.opopen_downgrade.OPEN_DOWNGRADE4res_u.resok4.open_stateid = stateid(2);
    print_one("OPEN_DOWNGRADE", r);
    r = op(5, NFS4_OK);
    memcpy(r.nfs_resop4_u.opcommit.COMMIT4res_u.resok4.writeverf, "abcdefgh", 8);
    print_one("COMMIT", r);
    r = op(6, NFS4_OK);
    r.nfs_resop4_u.opcreate.CREATE4res_u.resok4.cinfo = change();
    r.nfs_resop4_u.opcreate.CREATE4res_u.resok4.attrset = bitmap(1);
    print_one("CREATE", r);
    r = op(9, NFS4_OK);
    r.nfs_resop4_u.opgetattr.GETATTR4res_u.resok4.obj_attributes = fattr();
    print_one("GETATTR", r);
    r = op(10, NFS4_OK);
    r.nfs_resop4_u.opgetfh.GETFH4res_u.resok4.object.nfs_fh4_len = 5;
    r.nfs_resop4_u.opgetfh.GETFH4res_u.resok4.object.nfs_fh4_val = "HANDL";
    print_one("GETFH", r);
    r = op(12, NFS4ERR_DENIED);
    r.nfs_resop4_u.oplock.LOCK4res_u.denied = denied;
    print_one("LOCK_DENIED", r);
    denied.locktype = READ_LT;
    r = op(13, NFS4ERR_DENIED);
    r.nfs_resop4_u.oplockt.LOCKT4res_u.denied = denied;
    print_one("LOCKT_DENIED", r);

    memset(&d, 0, sizeof d);
    print_one("OPEN_NONE", open_of(d));
    d.delegation_type = OPEN_DELEGATE_READ;
    d.open_delegation4_u.read.stateid = stateid(7);
    print_one("OPEN_READ", open_of(d));
    memset(&d, 0, sizeof d);
    d.delegation_type = OPEN_DELEGATE_WRITE;
    d.open_delegation4_u.write.stateid = stateid(8);
    d.open_delegation4_u.write.space_limit.limitby = NFS_LIMIT_SIZE;
    d.open_delegation4_u.write.space_limit.nfs_space_limit4_u.filesize = 1048576;
    print_one("OPEN_WRITE", open_of(d));
    open_delegation4 written = d;
    /* what is passed over in reading */
    d.open_delegation4_u.write.recall = 1;
    d.open_delegation4_u.write.space_limit.nfs_space_limit4_u.filesize = 9;
    d.open_delegation4_u.write.permissions.type = 1;
    d.open_delegation4_u.write.permissions.flag = 2;
    d.open_delegation4_u.write.permissions.access_mask = 3;
    d.open_delegation4_u.write.permissions.who.utf8string_len = 5;
    d.open_delegation4_u.write.permissions.who.utf8string_val = "OWNER";
    r = open_of(d);
    r.nfs_resop4_u.opopen.OPEN4res_u.resok4.cinfo.atomic = 0;
    print("OPEN_OTHER", &r, 1, NFS4_OK);
    told_again("OPEN_WRITE", open_of(written));

    r = op(25, NFS4_OK);
    r.nfs_resop4_u.opread.READ4res_u.resok4.eof = 1;
    r.nfs_resop4_u.opread.READ4res_u.resok4.data.data_len = 3;
    r.nfs_resop4_u.opread.READ4res_u.resok4.data.data_val = "abc";
    print_one("READ", r);
    memset(entries, 0, sizeof entries);
    for (int i = 0; i < 3; i++) {
        entries[i].cookie = 16 + i;
        entries[i].name.utf8string_len = i + 1;
        entries[i].name.utf8string_val = "xyz";
        entries[i].nextentry = i < 2 ? &entries[i + 1] : NULL;
    }
    entries[2].attrs = fattr();
    print_one("READDIR_0", dir_of(NULL, 1));
    print_one("READDIR_1", dir_of(&entries[2], 0));
    print_one("READDIR_3", dir_of(entries, 1));
    r = op(28, NFS4_OK);
    r.nfs_resop4_u.opremove.REMOVE4res_u.resok4.cinfo = change();
    print_one("REMOVE", r);
    r = op(34, NFS4_OK);
    r.nfs_resop4_u.opsetattr.attrsset = bitmap(2);
    print_one("SETATTR", r);
    print_one("SETATTR_NOENT", op(34, NFS4ERR_NOENT));
    r = op(35, NFS4_OK);
    r.nfs_resop4_u.opsetclientid.SETCLIENTID4res_u.resok4.clientid = 258;
    memcpy(r.nfs_resop4_u.opsetclientid.SETCLIENTID4res_u.resok4.setclientid_confirm, "\0\0\0\0\0\0\0\7", 8);
    print_one("SETCLIENTID", r);
    r = op(35, NFS4ERR_CLID_INUSE);
    r.nfs_resop4_u.opsetclientid.SETCLIENTID4res_u.client_using.r_netid = "tcp";
    r.nfs_resop4_u.opsetclientid.SETCLIENTID4res_u.client_using.r_addr = "127.0.0.1.8.1";
    print_one("CLID_INUSE", r);
    r = op(38, NFS4_OK);
    r.nfs_resop4_u.opwrite.WRITE4res_u.resok4.count = 3;
    r.nfs_resop4_u.opwrite.WRITE4res_u.resok4.committed = FILE_SYNC4;
    print_one("WRITE", r);

    u_int plain[] = {8, 13, 15, 16, 22, 23, 24, 30, 31, 32, 36, 39};
    for (int i = 0; i < 12; i++)
        each[i] = op(plain[i], NFS4_OK);
    print("PLAIN", each, 12, NFS4_OK);
    told(" same\n");
    u_int count = 0;
    /* libnfs has no SECINFO */
    for (u_int n = 3; n < 40; n++)
        if (n != 33)
            each[count++] = op(n, NFS4ERR_NOTSUPP);
    each[count++] = op(10044, NFS4ERR_OP_ILLEGAL);
    print("FAILED", each, count, NFS4ERR_OP_ILLEGAL);
    told(" same\n");
    return 0;
}

/* Compounds with one operation each: a line `let NAME HEX`, and a line `args @NAME`. */
#include "vectors.h"

#define U op->nfs_argop4_u

/* A stateid of an argument. All zeros and all ones are special (RFC 7530, 9.1.4.3). */
static void told_state(stateid4 s)
{
    static const char zeros[12], ones[12] = {-1, -1, -1, -1, -1, -1, -1, -1, -1, -1, -1, -1};
    if (s.seqid == 0 && memcmp(s.other, zeros, 12) == 0) {
        told("Zeros");
    } else if (s.seqid == 0xffffffff && memcmp(s.other, ones, 12) == 0) {
        told("Ones");
    } else {
        told("Named(");
        told_stateid(s);
        told(")");
    }
}

/* Fields of a structure: a name, and what follows it. */
#define FIELD(name, format, value) told(name ": " format, value)
#define STATE(name, value) (told(name ": "), told_state(value))
#define TEXT(name, value) (told(name ": "), told_text(value))
#define OWNER(name, o) (told(name ": "), told_bytes((o).owner.owner_len, (o).owner.owner_val))
#define WORDS(name, value) (told(name ": "), told_bitmap(value))
#define ATTRIBUTES(name, value) (told(name ": "), told_fattr(value))
#define AND told(", ")

static const char *lock_types[] = {"", "Read", "Write", "ReadWait", "WriteWait"};
static const char *stable_words[] = {"Unstable", "DataSync", "FileSync"};

static void told_create(CREATE4args *a)
{
    static const char *plain[] = {"", "File", "Directory", "", "", "", "Socket", "Fifo", "AttributeDirectory", "NamedAttribute"};
    specdata4 device = a->objtype.createtype4_u.devdata;
    told("Create(CreateArgs { kind: ");
    switch (a->objtype.type) {
    case NF4BLK:
    case NF4CHR:
        told("%s(Device { major: %u, minor: %u })", a->objtype.type == NF4BLK ? "Block" : "Character", device.specdata1,
            device.specdata2);
        break;
    case NF4LNK:
        told("Link(");
        told_text(a->objtype.createtype4_u.linkdata);
        told(")");
        break;
    default:
        told("%s", plain[a->objtype.type]);
    }
    AND, TEXT("name", a->objname), AND, ATTRIBUTES("attributes", a->createattrs), told(" })");
}

static void told_lock(LOCK4args *a)
{
    open_to_lock_owner4 *o = &a->locker.locker4_u.open_owner;
    exist_lock_owner4 *k = &a->locker.locker4_u.lock_owner;
    told("Lock(OwnedLock { clientid: %llu, args: LockArgs { kind: %s, reclaim: %s, offset: %llu, length: %llu, locker: ",
        a->locker.new_lock_owner ? (unsigned long long)o->lock_owner.clientid : 0, lock_types[a->locktype],
        a->reclaim ? "true" : "false", (unsigned long long)a->offset, (unsigned long long)a->length);
    if (a->locker.new_lock_owner) {
        FIELD("New { open_seqid", "%u", o->open_seqid), AND, STATE("stateid", o->open_stateid), AND;
        FIELD("lock_seqid", "%u", o->lock_seqid), AND, OWNER("owner", o->lock_owner);
    } else {
        STATE("Known { stateid", k->lock_stateid), AND, FIELD("lock_seqid", "%u", k->lock_seqid);
    }
    told(" } } })");
}

static void told_opentype(openflag4 *how)
{
    createhow4 *made = &how->openflag4_u.how;
    if (how->opentype == OPEN4_NOCREATE) {
        told("NoCreate");
    } else if (made->mode == EXCLUSIVE4) {
        told("Exclusive(%llu)", number(made->createhow4_u.createverf, 8));
    } else {
        told(made->mode == GUARDED4 ? "Guarded(" : "Unchecked(");
        told_fattr(made->createhow4_u.createattrs);
        told(")");
    }
}

static void told_claim(open_claim4 *c)
{
    switch (c->claim) {
    case CLAIM_NULL:
        told("Null("), told_text(c->open_claim4_u.file), told(")");
        break;
    case CLAIM_PREVIOUS:
        told("Previous(%u)", c->open_claim4_u.delegate_type);
        break;
    case CLAIM_DELEGATE_CUR:
        STATE("DelegateCur { stateid", c->open_claim4_u.delegate_cur_info.delegate_stateid), AND;
        TEXT("name", c->open_claim4_u.delegate_cur_info.file), told(" }");
        break;
    default:
        told("DelegatePrev("), told_text(c->open_claim4_u.file_delegate_prev), told(")");
    }
}

static void told_open(OPEN4args *a)
{
    told("Open(OwnedOpen { clientid: %llu, args: OpenArgs { seqid: %u, access: %u, deny: %u, ",
        (unsigned long long)a->owner.clientid, a->seqid, a->share_access, a->share_deny);
    OWNER("owner", a->owner), AND, told("opentype: "), told_opentype(&a->openhow), AND, told("claim: "), told_claim(&a->claim);
    told(" } })");
}

static void told_setclientid(SETCLIENTID4args *a)
{
    char *netid = a->callback.cb_location.r_netid, *addr = a->callback.cb_location.r_addr;
    told("SetClientId(SetClientIdArgs { verifier: %llu, id: ", number(a->client.verifier, 8));
    told_bytes(a->client.id.id_len, a->client.id.id_val), AND;
    FIELD("program", "%u", a->callback.cb_program), AND, told("netid: "), told_bytes(strlen(netid), netid), AND;
    told("addr: "), told_bytes(strlen(addr), addr), AND, FIELD("ident", "%u", a->callback_ident), told(" })");
}

static void told_op(nfs_argop4 *op)
{
#define LONG(name, value) FIELD(name, "%llu", (unsigned long long)(value))
    switch (op->argop) {
    case OP_ACCESS: FIELD("Access(AccessArgs { access", "%u", U.opaccess.access), told(" })"); break;
    case OP_CLOSE:
        FIELD("Close(CloseArgs { seqid", "%u", U.opclose.seqid), AND, STATE("stateid", U.opclose.open_stateid), told(" })");
        break;
    case OP_COMMIT:
        LONG("Commit(CommitArgs { offset", U.opcommit.offset), AND, FIELD("count", "%u", U.opcommit.count), told(" })");
        break;
    case OP_CREATE: told_create(&U.opcreate); break;
    case OP_DELEGPURGE: told("DelegPurge(%llu)", (unsigned long long)U.opdelegpurge.clientid); break;
    case OP_DELEGRETURN: STATE("DelegReturn(DelegReturnArgs { stateid", U.opdelegreturn.deleg_stateid), told(" })"); break;
    case OP_GETATTR: WORDS("GetAttr(GetAttrArgs { words", U.opgetattr.attr_request), told(" })"); break;
    case OP_GETFH: told("GetFh"); break;
    case OP_LINK: told("Link("), told_text(U.oplink.newname), told(")"); break;
    case OP_LOCK: told_lock(&U.oplock); break;
    case OP_LOCKT:
        LONG("LockT(OwnedLockTest { clientid", U.oplockt.owner.clientid), AND;
        FIELD("args: LockTestArgs { kind", "%s", lock_types[U.oplockt.locktype]), AND, LONG("offset", U.oplockt.offset), AND;
        LONG("length", U.oplockt.length), AND, OWNER("owner", U.oplockt.owner), told(" } })");
        break;
    case OP_LOCKU:
        FIELD("LockU(UnlockArgs { kind", "%s", lock_types[U.oplocku.locktype]), AND, FIELD("seqid", "%u", U.oplocku.seqid), AND;
        STATE("stateid", U.oplocku.lock_stateid), AND, LONG("offset", U.oplocku.offset), AND;
        LONG("length", U.oplocku.length), told(" })");
        break;
    case OP_LOOKUP: TEXT("Lookup(LookupArgs { name", U.oplookup.objname), told(" })"); break;
    case OP_LOOKUPP: told("LookupP"); break;
    case OP_NVERIFY: told("NVerify("), told_fattr(U.opnverify.obj_attributes), told(")"); break;
    case OP_OPEN: told_open(&U.opopen); break;
    case OP_OPENATTR: told("OpenAttr(%s)", U.opopenattr.createdir ? "true" : "false"); break;
    case OP_OPEN_CONFIRM:
        STATE("OpenConfirm(OpenConfirmArgs { stateid", U.opopen_confirm.open_stateid), AND;
        FIELD("seqid", "%u", U.opopen_confirm.seqid), told(" })");
        break;
    case OP_OPEN_DOWNGRADE:
        STATE("OpenDowngrade(OpenDowngradeArgs { stateid", U.opopen_downgrade.open_stateid), AND;
        FIELD("seqid", "%u", U.opopen_downgrade.seqid), AND, FIELD("access", "%u", U.opopen_downgrade.share_access), AND;
        FIELD("deny", "%u", U.opopen_downgrade.share_deny), told(" })");
        break;
    case OP_PUTFH:
        told("PutFh("), told_bytes(U.opputfh.object.nfs_fh4_len, U.opputfh.object.nfs_fh4_val), told(")");
        break;
    case OP_PUTPUBFH: told("PutPubFh"); break;
    case OP_PUTROOTFH: told("PutRootFh"); break;
    case OP_READ:
        STATE("Read(ReadArgs { stateid", U.opread.stateid), AND, LONG("offset", U.opread.offset), AND;
        FIELD("count", "%u", U.opread.count), told(" })");
        break;
    case OP_READDIR:
        LONG("ReadDir(ReadDirArgs { cookie", U.opreaddir.cookie), AND, LONG("verifier", number(U.opreaddir.cookieverf, 8)), AND;
        FIELD("dircount", "%u", U.opreaddir.dircount), AND, FIELD("maxcount", "%u", U.opreaddir.maxcount), AND;
        WORDS("words", U.opreaddir.attr_request), told(" })");
        break;
    case OP_READLINK: told("ReadLink"); break;
    case OP_REMOVE: TEXT("Remove(RemoveArgs { name", U.opremove.target), told(" })"); break;
    case OP_RENAME:
        TEXT("Rename(RenameArgs { from", U.oprename.oldname), AND, TEXT("to", U.oprename.newname), told(" })");
        break;
    case OP_RENEW: told("Renew(%llu)", (unsigned long long)U.oprenew.clientid); break;
    case OP_RESTOREFH: told("RestoreFh"); break;
    case OP_SAVEFH: told("SaveFh"); break;
    case OP_SETATTR:
        STATE("SetAttr(SetAttrArgs { stateid", U.opsetattr.stateid), AND;
        ATTRIBUTES("attributes", U.opsetattr.obj_attributes), told(" })");
        break;
    case OP_SETCLIENTID: told_setclientid(&U.opsetclientid); break;
    case OP_SETCLIENTID_CONFIRM:
        LONG("SetClientIdConfirm(SetClientIdConfirmArgs { clientid", U.opsetclientid_confirm.clientid), AND;
        LONG("verifier", number(U.opsetclientid_confirm.setclientid_confirm, 8)), told(" })");
        break;
    case OP_VERIFY: told("Verify("), told_fattr(U.opverify.obj_attributes), told(")"); break;
    case OP_WRITE:
        STATE("Write(WriteArgs { stateid", U.opwrite.stateid), AND, LONG("offset", U.opwrite.offset), AND;
        FIELD("stable", "%s", stable_words[U.opwrite.stable]), AND;
        told("data: "), told_bytes(U.opwrite.data.data_len, U.opwrite.data.data_val), told(" })");
        break;
    case OP_RELEASE_LOCKOWNER:
        LONG("ReleaseLockOwner(OwnedRelease { clientid", U.oprelease_lockowner.lock_owner.clientid), AND;
        told("args: ReleaseLockOwnerArgs { "), OWNER("owner", U.oprelease_lockowner.lock_owner), told(" } })");
        break;
    default: told("another operation");
    }
#undef LONG
}

static void tell(const char *name, nfs_argop4 *op)
{
    static char buffer[1 << 16];
    COMPOUND4args args;
    ZDR zdr;
    memset(&args, 0, sizeof args);
    args.tag.utf8string_len = 3;
    args.tag.utf8string_val = "tag";
    args.argarray.argarray_len = 1;
    args.argarray.argarray_val = op;
    libnfs_zdrmem_create(&zdr, buffer, sizeof buffer, ZDR_ENCODE);
    if (!zdr_COMPOUND4args(&zdr, &args)) {
        fprintf(stderr, "%s isn't encoded\n", name);
        exit(1);
    }
    name_bytes(name, buffer, zdr.pos);
    line("args @%s\n", name);
    told("minor 0 tag 746167 ");
    told_op(op);
    told(" Clean same\n");
}
#undef U
static stateid4 stateid(void) {
    stateid4 s = {7, {0, 0, 0, 3, 0, 0, 0, 0, 0, 0, 0, 9}};
    return s;
}

static utf8string text(char *t) {
    utf8string s = {strlen(t), t};
    return s;
}

static uint32_t words[2] = {0x10, 0x2};
static char values[12] = {0, 0, 0, 0, 0, 0, 0, 5, 0, 0, 1, (char)0xa4};

static bitmap4 bitmap(void) {
    bitmap4 b = {2, words};
    return b;
}

static fattr4 fattr(void) {
    fattr4 f = {{2, words}, {12, values}};
    return f;
}

#define BEGIN(number) { nfs_argop4 op; memset(&op, 0, sizeof op); op.argop = number;
#define END(name) tell(name, &op); }
#define U op.nfs_argop4_u
#define PLAIN(name, number) BEGIN(number) END(name)

static void open_with(int making, int mode, int claim) {
    static const char *claims[] = {"null", "previous", "delegate-cur", "delegate-prev"};
    static const char *modes[] = {"unchecked", "guarded", "exclusive"};
    char name[64];
    sprintf(name, "OPEN-%s-%s", making ? modes[mode] : "nocreate", claims[claim]);
    BEGIN(OP_OPEN)
    U.opopen.seqid = 4;
    U.opopen.share_access = 3;
    U.opopen.share_deny = 1;
    U.opopen.owner.clientid = 0x0102030405060708;
    U.opopen.owner.owner.owner_len = 5;
    U.opopen.owner.owner.owner_val = "owner";
    U.opopen.openhow.opentype = making;
    U.opopen.openhow.openflag4_u.how.mode = mode;
    if (making == OPEN4_CREATE && mode == EXCLUSIVE4)
        memcpy(U.opopen.openhow.openflag4_u.how.createhow4_u.createverf, "verifier", 8);
    else if (making == OPEN4_CREATE)
        U.opopen.openhow.openflag4_u.how.createhow4_u.createattrs = fattr();
    U.opopen.claim.claim = claim;
    if (claim == CLAIM_NULL) U.opopen.claim.open_claim4_u.file = text("file");
    if (claim == CLAIM_PREVIOUS) U.opopen.claim.open_claim4_u.delegate_type = 2;
    if (claim == CLAIM_DELEGATE_CUR) {
        U.opopen.claim.open_claim4_u.delegate_cur_info.delegate_stateid = stateid();
        U.opopen.claim.open_claim4_u.delegate_cur_info.file = text("file");
    }
    if (claim == CLAIM_DELEGATE_PREV) U.opopen.claim.open_claim4_u.file_delegate_prev = text("file");
    END(name)
}

static void create_with(int type) {
    char name[32];
    sprintf(name, "CREATE-%d", type);
    BEGIN(OP_CREATE)
    U.opcreate.objtype.type = type;
    if (type == NF4LNK) U.opcreate.objtype.createtype4_u.linkdata = text("to");
    if (type == NF4BLK || type == NF4CHR) {
        U.opcreate.objtype.createtype4_u.devdata.specdata1 = 8;
        U.opcreate.objtype.createtype4_u.devdata.specdata2 = 1;
    }
    U.opcreate.objname = text("name");
    U.opcreate.createattrs = fattr();
    END(name)
}

static void lock_with(int type, int is_new) {
    char name[32];
    sprintf(name, "LOCK-%d-%s", type, is_new ? "new" : "known");
    BEGIN(OP_LOCK)
    U.oplock.locktype = type;
    U.oplock.reclaim = is_new == (type == WRITE_LT || type == READW_LT);
    U.oplock.offset = 10;
    U.oplock.length = 0xffffffffffffffff;
    U.oplock.locker.new_lock_owner = is_new;
    if (is_new) {
        U.oplock.locker.locker4_u.open_owner.open_seqid = 2;
        U.oplock.locker.locker4_u.open_owner.open_stateid = stateid();
        U.oplock.locker.locker4_u.open_owner.lock_seqid = 1;
        U.oplock.locker.locker4_u.open_owner.lock_owner.clientid = 5;
        U.oplock.locker.locker4_u.open_owner.lock_owner.owner.owner_len = 4;
        U.oplock.locker.locker4_u.open_owner.lock_owner.owner.owner_val = "lock";
    } else {
        U.oplock.locker.locker4_u.lock_owner.lock_stateid = stateid();
        U.oplock.locker.locker4_u.lock_owner.lock_seqid = 6;
    }
    END(name)
}

int main(int count, char **arguments) {
    begin(count, arguments);
    BEGIN(OP_ACCESS) U.opaccess.access = 0x3f; END("ACCESS")
    BEGIN(OP_CLOSE) U.opclose.seqid = 4; U.opclose.open_stateid = stateid(); END("CLOSE")
    BEGIN(OP_COMMIT) U.opcommit.offset = 4096; U.opcommit.count = 512; END("COMMIT")
    for (int type = NF4REG; type <= NF4NAMEDATTR; type++) create_with(type);
    BEGIN(OP_DELEGPURGE) U.opdelegpurge.clientid = 5; END("DELEGPURGE")
    BEGIN(OP_DELEGRETURN) U.opdelegreturn.deleg_stateid = stateid(); END("DELEGRETURN")
    BEGIN(OP_GETATTR) U.opgetattr.attr_request = bitmap(); END("GETATTR")
    PLAIN("GETFH", OP_GETFH)
    BEGIN(OP_LINK) U.oplink.newname = text("name"); END("LINK")
    for (int type = READ_LT; type <= WRITEW_LT; type++) {
        lock_with(type, 1);
        lock_with(type, 0);
    }
    BEGIN(OP_LOCKT)
    U.oplockt.locktype = WRITE_LT;
    U.oplockt.offset = 1;
    U.oplockt.length = 2;
    U.oplockt.owner.clientid = 5;
    U.oplockt.owner.owner.owner_len = 4;
    U.oplockt.owner.owner.owner_val = "lock";
    END("LOCKT")
    BEGIN(OP_LOCKU)
    U.oplocku.locktype = READ_LT;
    U.oplocku.seqid = 3;
    U.oplocku.lock_stateid = stateid();
    U.oplocku.offset = 1;
    U.oplocku.length = 2;
    END("LOCKU")
    BEGIN(OP_LOOKUP) U.oplookup.objname = text("name"); END("LOOKUP")
    PLAIN("LOOKUPP", OP_LOOKUPP)
    BEGIN(OP_NVERIFY) U.opnverify.obj_attributes = fattr(); END("NVERIFY")
    for (int claim = CLAIM_NULL; claim <= CLAIM_DELEGATE_PREV; claim++) {
        open_with(OPEN4_NOCREATE, 0, claim);
        for (int mode = UNCHECKED4; mode <= EXCLUSIVE4; mode++) open_with(OPEN4_CREATE, mode, claim);
    }
    BEGIN(OP_OPENATTR) U.opopenattr.createdir = 1; END("OPENATTR")
    PLAIN("OPENATTR-false", OP_OPENATTR)
    BEGIN(OP_OPEN_CONFIRM) U.opopen_confirm.open_stateid = stateid(); U.opopen_confirm.seqid = 5; END("OPEN_CONFIRM")
    BEGIN(OP_OPEN_DOWNGRADE)
    U.opopen_downgrade.open_stateid = stateid();
    U.opopen_downgrade.seqid = 6;
    U.opopen_downgrade.share_access = 1;
    U.opopen_downgrade.share_deny = 2;
    END("OPEN_DOWNGRADE")
    BEGIN(OP_PUTFH) U.opputfh.object.nfs_fh4_len = 6; U.opputfh.object.nfs_fh4_val = "handle"; END("PUTFH")
    PLAIN("PUTPUBFH", OP_PUTPUBFH)
    PLAIN("PUTROOTFH", OP_PUTROOTFH)
    BEGIN(OP_READ) U.opread.stateid = stateid(); U.opread.offset = 8; U.opread.count = 9; END("READ")
    BEGIN(OP_READ) END("READ-zeros")
    BEGIN(OP_READ) memset(&U.opread.stateid, 255, 16); U.opread.offset = ~0ull; U.opread.count = ~0u; END("READ-ones")
    BEGIN(OP_READDIR)
    U.opreaddir.cookie = 3;
    memcpy(U.opreaddir.cookieverf, "cookies!", 8);
    U.opreaddir.dircount = 100;
    U.opreaddir.maxcount = 200;
    U.opreaddir.attr_request = bitmap();
    END("READDIR")
    PLAIN("READLINK", OP_READLINK)
    BEGIN(OP_REMOVE) U.opremove.target = text("name"); END("REMOVE")
    BEGIN(OP_RENAME) U.oprename.oldname = text("old"); U.oprename.newname = text("newer"); END("RENAME")
    BEGIN(OP_RENEW) U.oprenew.clientid = 5; END("RENEW")
    PLAIN("RESTOREFH", OP_RESTOREFH)
    PLAIN("SAVEFH", OP_SAVEFH)
    BEGIN(OP_SETATTR) U.opsetattr.stateid = stateid(); U.opsetattr.obj_attributes = fattr(); END("SETATTR")
    BEGIN(OP_SETCLIENTID)
    memcpy(U.opsetclientid.client.verifier, "verifier", 8);
    U.opsetclientid.client.id.id_len = 10;
    U.opsetclientid.client.id.id_val = "nfsmove/C1";
    U.opsetclientid.callback.cb_program = 0x40000000;
    U.opsetclientid.callback.cb_location.r_netid = "tcp";
    U.opsetclientid.callback.cb_location.r_addr = "127.0.0.1.8.1";
    U.opsetclientid.callback_ident = 1;
    END("SETCLIENTID")
    BEGIN(OP_SETCLIENTID_CONFIRM)
    U.opsetclientid_confirm.clientid = 5;
    memcpy(U.opsetclientid_confirm.setclientid_confirm, "confirm!", 8);
    END("SETCLIENTID_CONFIRM")
    BEGIN(OP_VERIFY) U.opverify.obj_attributes = fattr(); END("VERIFY")
    for (int stable = UNSTABLE4; stable <= FILE_SYNC4; stable++) {
        char name[32];
        sprintf(name, "WRITE-%d", stable);
        BEGIN(OP_WRITE)
        U.opwrite.stateid = stateid();
        U.opwrite.offset = 8;
        U.opwrite.stable = stable;
        U.opwrite.data.data_len = 5;
        U.opwrite.data.data_val = "bytes";
        END(name)
    }
    BEGIN(OP_RELEASE_LOCKOWNER)
    U.oprelease_lockowner.lock_owner.clientid = 5;
    U.oprelease_lockowner.lock_owner.owner.owner_len = 4;
    U.oprelease_lockowner.lock_owner.owner.owner_val = "lock";
    END("RELEASE_LOCKOWNER")
    return 0;
}

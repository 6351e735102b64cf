/* Cases for the codecs, with what has to come of them (docs/FORMATS.md, "Cases of the tests"). A program that includes this prints
 * lines of cases, as libnfs encodes the values that it names; with the argument `told` it prints what has to come of each, out
 * of these values. */
#include <stdarg.h>
#include <stdio.h>
#include <stdlib.h>
#include <string.h>
#include <sys/time.h>
#include <nfsc/libnfs-zdr.h>
#include <nfsc/libnfs.h>
#include <nfsc/libnfs-raw.h>
#include <nfsc/libnfs-raw-nfs4.h>

static int wants_told;

static void begin(int count, char **words)
{
    wants_told = count > 1 && strcmp(words[1], "told") == 0;
}

/* Prints a part of a case. */
static void line(const char *format, ...)
{
    va_list rest;
    va_start(rest, format);
    if (!wants_told) vprintf(format, rest);
    va_end(rest);
}

/* Prints a part of what has to come of a case. */
static void told(const char *format, ...)
{
    va_list rest;
    va_start(rest, format);
    if (wants_told) vprintf(format, rest);
    va_end(rest);
}

/* `let NAME HEX` */
static void name_bytes(const char *name, const char *bytes, u_int count)
{
    line("let %s ", name);
    for (u_int i = 0; i < count; i++) line("%02x", (unsigned char)bytes[i]);
    line("\n");
    told("let %s\n", name);
}

static void told_bytes(u_int count, const char *bytes)
{
    told("Items { items: [");
    for (u_int i = 0; i < count; i++) told("%s%u", i ? ", " : "", (unsigned char)bytes[i]);
    told("] }");
}

static void told_text(utf8string t)
{
    told_bytes(t.utf8string_len, t.utf8string_val);
}

static void told_bitmap(bitmap4 b)
{
    told("Items { items: [");
    for (u_int i = 0; i < b.bitmap4_len; i++) told("%s%u", i ? ", " : "", b.bitmap4_val[i]);
    told("] }");
}

static void told_fattr(fattr4 f)
{
    told("Fattr { words: ");
    told_bitmap(f.attrmask);
    told(", values: ");
    told_bytes(f.attr_vals.attrlist4_len, f.attr_vals.attrlist4_val);
    told(" }");
}

/* The number that so many bytes are, the highest first. */
static unsigned long long number(const char *bytes, int count)
{
    unsigned long long n = 0;
    for (int i = 0; i < count; i++) n = n << 8 | (unsigned char)bytes[i];
    return n;
}

static void told_stateid(stateid4 s)
{
    told("StateId { seqid: %u, fs: %llu, counter: %llu }", s.seqid, number(s.other, 4), number(s.other + 4, 8));
}

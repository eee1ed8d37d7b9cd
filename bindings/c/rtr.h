/* Units and sequences of the RPKI to Router protocol (RFC 6810, RFC 8210), in memory.
 *
 * Copyright (c) 2026, the authors of Fishreef
 * Copyright (c) 2018, NLnet Labs
 * BSD 3-Clause License: see the file LICENSE at the top of the repository.
 *
 * The functions are proved to meet their contracts. docs/PROTOCOL.md says in prose what is
 * accepted, in which order faults are checked, and what the written form is. This header is not
 * proved: its numbers, structs, prototypes and texts are generated from the proved code, and tests
 * run its examples. All lengths are in bytes.
 *
 * Preconditions of every call:
 *   - a slice is passed as a pointer and a length: that many bytes can be read there, or written if
 *     it is an output. With length 0 any pointer is allowed, null included. No other pointer is
 *     null;
 *   - an output, and what the last pointer points at, overlap no other argument. Inputs may overlap
 *     each other;
 *   - until the call returns, no other thread writes to anything that was passed, nor reads an
 *     output or what the last pointer points at.
 * Outputs and what the last pointer points at needn't be initialized.
 *
 * If these hold, no call crashes, accesses a byte outside of its arguments, or keeps a pointer or
 * any state. Several threads may call at once. No call allocates memory or blocks.
 *
 * ASPA units are read in one layout: the flags in byte 2, of which the lowest bit announces; byte
 * 3, whose value is ignored; the length in bytes 4 to 7; the customer AS in bytes 8 to 11; the
 * providers from byte 12 on, 4 bytes each. ASPA units of older drafts, such as stayrtr 0.5.1 sends,
 * have another layout and are misread without a fault: docs/PROTOCOL.md shows it, and how an
 * announcement by AS65010 with two providers reads as a withdrawal by AS16777218 with three.
 */
#ifndef FISHREEF_RTR_H
#define FISHREEF_RTR_H

#include <stdbool.h>
#include <stddef.h>
#include <stdint.h>

#include "rtr_abi.h"

/* The version of this header and of the archive built with it, as in CHANGELOG.md. */
#define RTR_WIRE_VERSION "0.3.0"

/* The same as a number: 10000 times the first number, 100 times the second, and the third. */
#define RTR_WIRE_VERSION_NUMBER 300

/* Numbers of the protocol, as laws of the proved code state them. Sizes are in bytes. */
#define RTR_HIGHEST_VERSION 2         /* the highest protocol version; the lowest is 0 */
#define RTR_HEADER_SIZE 8             /* the size of a header, which is a whole reset query */
#define RTR_SERIAL_SIZE 12            /* the size of a serial notify or a serial query */
#define RTR_IPV4_SIZE 20              /* the size of an IPv4 prefix */
#define RTR_IPV6_SIZE 32              /* the size of an IPv6 prefix */
#define RTR_KEY_SIZE 32               /* the size of a router key without its key info */
#define RTR_ASPA_SIZE 12              /* the size of an ASPA without its providers */
#define RTR_REPORT_SIZE 16            /* the size of an error report without unit and text */
#define RTR_SHORTEST_END 12           /* the size of an end of data in version 0 */
#define RTR_LONGEST_END 24            /* the size of an end of data in versions 1 and 2 */
#define RTR_SHORTEST_PAYLOAD 12       /* the shortest payload unit: an ASPA without providers */
#define RTR_LONGEST_UNIT 65535        /* the size of the longest unit that is read or written */
#define RTR_MOST_KEY_INFO 65503       /* the most bytes of key info in a router key */
#define RTR_MOST_PROVIDER_BYTES 65520 /* the most bytes of providers in an ASPA */
#define RTR_MOST_REPORT_PARTS 65519   /* the most bytes of a report's unit and text together */

/* The times of an end of data in seconds (RFC 8210 section 6): the defaults, which version 0
 * implies, and the least and most that a router accepts. */
#define RTR_USUAL_REFRESH 3600
#define RTR_LEAST_REFRESH 1
#define RTR_MOST_REFRESH 86400
#define RTR_USUAL_RETRY 600
#define RTR_LEAST_RETRY 1
#define RTR_MOST_RETRY 7200
#define RTR_USUAL_EXPIRE 7200
#define RTR_LEAST_EXPIRE 600
#define RTR_MOST_EXPIRE 172800

/* The version in which a client asks if its caller names none: that of RFC 8210. ASPAs need version
 * 2, for which caches in use have several layouts. */
#define RTR_USUAL_VERSION 1

/* The most members of a group. */
#define RTR_MOST_MEMBERS 16

/* Before a client closes a connection to which it sent a report: the default time for the report to
 * be sent and for the cache to read it, in milliseconds; and the most bytes that it reads meanwhile
 * and ignores. A connection that is closed with unread bytes is reset: the report may be lost. */
#define RTR_LAST_REPORT_LIMIT 2000
#define RTR_LAST_REPORT_BYTES 1048576

/* Buffer sizes that suffice for what calls write; tests check them. */
#define RTR_TEXT_ROOM 64         /* for rtr_text and rtr_name, with a 0 after the text */
#define RTR_TEXT_AT_ROOM 96      /* for rtr_text_at, with a 0 after the text */
#define RTR_REPORT_TEXT_ROOM 136 /* for rtr_report_text, with a 0 after the text */
#define RTR_NAME_ROOM 65528      /* for rtr_check_name */
#define RTR_LINE_ROOM 160        /* for rtr_line of most units: not of long keys, ASPAs, reports */
#define RTR_FINDING_ROOM 128     /* for rtr_finding_line */

/* Texts of failures of clients and caches that no call has a text for, in all languages. A failure
 * by a peer's error report has the text of RTR_CAUSE_REPORTED or RTR_REASON_REPORTED, and that of
 * rtr_report_text: `the cache reports an error: No Data Available, "later"`. */
#define RTR_FAILURE_NO_MEMORY "no memory"
#define RTR_FAILURE_EMPTY "the cache has no payloads"
#define RTR_FAILURE_STOPPED "the client was stopped"
#define RTR_FAILURE_SLOW "the peer is too slow"
#define RTR_FAILURE_NO_OTHER "there is no other connection"
#define RTR_FAILURE_MORE_READ "more bytes were read than there is room for"
#define RTR_FAILURE_MORE_SENT "more bytes were sent than there are"
#define RTR_FAILURE_BEHIND "the router is too far behind"
#define RTR_FAILURE_CLOSED "the server is closed"
#define RTR_FAILURE_OLD_SERIAL "the serial number isn't later than that of the present data"
#define RTR_FAILURE_OTHER_TIMES "only the times differ from those of the present data"
#define RTR_FAILURE_SESSION_LEFT "the cache left this session: the data need a new one"
#define RTR_FAILURE_OTHER_SESSION "a cache that doesn't save has one session"
#define RTR_FAILURE_UNSAVED "the cache serves data that it didn't save"
#define RTR_FAILURE_NOT_RESTORED "the file exists, and wasn't restored"
#define RTR_FAILURE_OTHER_FILE "the data are saved in another file"
#define RTR_FAILURE_UNSYNCED "the folder isn't synced"
#define RTR_FAILURE_HIGHER_VERSION "the saved data are of a lower version: the data need a new session"
#define RTR_FAILURE_UNSERVED "new data aren't served before they are saved"
#define RTR_FAILURE_DAMAGED "the saved file is damaged: the data need a new session"

/* A warning of caches about data of serial number 0: after a cut in the first answer BIRD 2.0 asks
 * for the changes since that, and keeps the part of the data that it has. */
#define RTR_WARNING_SERIAL_0 \
    "serial number 0: a router that lost its first answer may ask with it, and keep a part of " \
    "the data"

#define RTR_MOST_QUOTED 100 /* the most bytes of a report's text that a failure shows */

#ifdef __cplusplus
extern "C" {
#endif

/* The result of a call; each call below lists the statuses that it returns. The faults of a unit
 * are 1 to 7, checked in the order of docs/PROTOCOL.md. Number 11 was "out of memory", which no
 * call returns any more. */
enum rtr_status {
    RTR_OK = 0,                /* the call succeeded */
    RTR_SHORT = 1,             /* the input ends inside a unit, or before one */
    RTR_UNIT_TYPE = 2,         /* `detail` is a type that is not allowed here */
    RTR_UNIT_VERSION = 3,      /* `detail` is a version that is not allowed here */
    RTR_TOO_LONG = 4,          /* a router key, an ASPA or a report of more than 65535 bytes */
    RTR_UNIT_LENGTH = 5,       /* the length is wrong for the type */
    RTR_EMPTY_PROVIDERS = 6,   /* an ASPA is announced without providers */
    RTR_PREFIX = 7,            /* a prefix breaks the rule `detail`, an rtr_prefix_rule */
    RTR_TOO_MANY = 8,          /* `limit` units were read, none of them an end of data */
    RTR_NO_ROOM = 9,           /* the output is too short for the next unit or text */
    RTR_NO_FORM = 10,          /* the action, the family or a part of a unit to write is wrong */
    RTR_NOT_CANONICAL = 12,    /* a unit or an end of data breaks the canonical form of data or
                                  changes */
    RTR_OTHER_SESSION = 13,    /* the second input is of another session than the first, or an
                                  end of data of another session than its answer */
    RTR_DUPLICATE = 14,        /* a payload other than an ASPA is announced that is already
                                  present */
    RTR_UNKNOWN = 15,          /* a payload is withdrawn that isn't present */
    RTR_UNDECIDED = 16,        /* changes to sort announce and then withdraw an ASPA, so the net
                                  change depends on the data */
    RTR_NO_INDEX = 17,         /* the index has fewer entries than there are units */
    RTR_TOO_MANY_MEMBERS = 18, /* a group would have more than RTR_MOST_MEMBERS members */
    RTR_OTHER_VERSION = 19,    /* a recorded unit has version `detail`, and the units before it
                                  in its answer, or the data that it changes, have another */
    RTR_OLD_SERIAL = 20,       /* the serial number of a recorded answer comes before that of the
                                  data that it changes */
    RTR_RESET_INSIDE = 21,     /* a recording has a cache reset inside an answer */
    RTR_REPORT_INSIDE = 22     /* a recording has an error report inside an answer */
};

enum rtr_prefix_rule {
    RTR_LENGTH_OVER = 1,     /* the prefix length is above 32 for IPv4 or 128 for IPv6 */
    RTR_MAX_LENGTH_OVER = 2, /* the max length is above 32 for IPv4 or 128 for IPv6 */
    RTR_MAX_LENGTH_UNDER = 3 /* the max length is below the prefix length */
};

/* The kinds of units, numbered by PDU type. */
enum rtr_kind {
    RTR_SERIAL_NOTIFY = 0,  /* a serial notify (RFC 8210 section 5.2) */
    RTR_SERIAL_QUERY = 1,   /* a serial query (RFC 8210 section 5.3) */
    RTR_RESET_QUERY = 2,    /* a reset query (RFC 8210 section 5.4) */
    RTR_CACHE_RESPONSE = 3, /* a cache response (RFC 8210 section 5.5) */
    RTR_IPV4_PREFIX = 4,    /* an IPv4 prefix (RFC 8210 section 5.6) */
    RTR_IPV6_PREFIX = 6,    /* an IPv6 prefix (RFC 8210 section 5.7) */
    RTR_END_OF_DATA = 7,    /* an end of data (RFC 6810 and RFC 8210 section 5.8) */
    RTR_CACHE_RESET = 8,    /* a cache reset (RFC 8210 section 5.9) */
    RTR_ROUTER_KEY = 9,     /* a router key (RFC 8210 section 5.10) */
    RTR_ERROR_REPORT = 10,  /* an error report (RFC 8210 section 5.11) */
    RTR_ASPA = 11           /* an ASPA, an autonomous system provider authorization */
};

/* The codes of error reports (RFC 8210 section 12); those above 8 are the Rust crate rpki's. */
enum rtr_code {
    RTR_CODE_CORRUPT_DATA = 0,                /* the data can't be parsed, or contradict
                                                 themselves */
    RTR_CODE_INTERNAL_ERROR = 1,              /* the peer had an internal error */
    RTR_CODE_NO_DATA_AVAILABLE = 2,           /* the cache has no data yet */
    RTR_CODE_INVALID_REQUEST = 3,             /* the request makes no sense to the cache */
    RTR_CODE_UNSUPPORTED_PROTOCOL_VERSION = 4,
    RTR_CODE_UNSUPPORTED_PDU_TYPE = 5,
    RTR_CODE_WITHDRAWAL_OF_UNKNOWN_RECORD = 6,
    RTR_CODE_DUPLICATE_ANNOUNCEMENT_RECEIVED = 7,
    RTR_CODE_UNEXPECTED_PROTOCOL_VERSION = 8, /* not the negotiated version */
    RTR_CODE_ASPA_PROVIDER_LIST_ERROR = 9,    /* an ASPA may not have these providers */
    RTR_CODE_TRANSPORT_ERROR = 10,            /* the connection failed */
    RTR_CODE_ORDERING_ERROR = 11              /* units came in the wrong order */
};

/* The order of two serial numbers (RFC 1982 section 3.2). */
enum rtr_order {
    RTR_SERIAL_EQUAL = 0,
    RTR_SERIAL_LESS = 1,    /* the left one is less */
    RTR_SERIAL_GREATER = 2, /* the left one is greater */
    RTR_SERIAL_NO_ORDER = 3 /* they are 2^31 apart */
};

/* The kinds of numbers that rtr_name names. */
enum rtr_named {
    RTR_NAMED_STATUS = 0,   /* an rtr_status, without its detail: "unit type is not allowed here" */
    RTR_NAMED_KIND = 1,     /* an rtr_kind: "IPv4 prefix" */
    RTR_NAMED_CAUSE = 2,    /* an rtr_cause: "the cache is too slow" */
    RTR_NAMED_REASON = 3,   /* an rtr_reason: "the router is too slow" */
    RTR_NAMED_CODE = 4,     /* an error code (RFC 8210 section 12): "Corrupt Data" */
    RTR_NAMED_TIME_RULE = 5 /* an rtr_time_rule: "the retry time has to be 1 to 7200 seconds" */
};

/* The rules on the times that a cache sends, in seconds (RFC 8210 section 6); rtr_time_rule_text
 * returns their texts. */
enum rtr_time_rule {
    RTR_TIME_RULE_NONE = 0,
    RTR_TIME_RULE_REFRESH = 1,       /* the refresh time is 1 to 86400 */
    RTR_TIME_RULE_RETRY = 2,         /* the retry time is 1 to 7200 */
    RTR_TIME_RULE_EXPIRE = 3,        /* the expire time is 600 to 172800 */
    RTR_TIME_RULE_ABOVE_REFRESH = 4, /* the expire time is longer than the refresh time */
    RTR_TIME_RULE_ABOVE_RETRY = 5    /* the expire time is longer than the retry time */
};

/* The two inputs of a comparison. */
enum rtr_side {
    RTR_LEFT = 1,
    RTR_RIGHT = 2
};

/* The result of a call that normalises. */
struct rtr_answer {
    uint64_t units; /* payload units that were read, without the end of data */
    uint64_t forms; /* payload units that were written; fewer than `units` only for one version */
    size_t taken;   /* bytes of the input that were read: whole units, and the end of data. If
                       the call stopped, the offset of the unit at which it stopped */
    size_t written; /* bytes of the output that were written, from its start */
    size_t wanted;  /* after RTR_SHORT, the least number of bytes needed from input + taken on,
                       as in an rtr_unit; else 0 */
    uint8_t status; /* the result of the call, an rtr_status, which the call returns too */
    uint8_t detail; /* the type, version or rule that RTR_UNIT_TYPE, RTR_UNIT_VERSION or
                       RTR_PREFIX refuses, as enum rtr_status says; else 0 */
};

/* The result of a call on data and changes. */
struct rtr_data_answer {
    size_t written; /* after RTR_OK the bytes of the output that were written, from its start;
                       else 0. After RTR_NO_ROOM the output's contents are unspecified, after any
                       other status unchanged */
    size_t offset;  /* the offset of the unit at fault in its input; 0 if no unit is at fault */
    uint8_t status; /* the result of the call, an rtr_status, which the call returns too */
    uint8_t side;   /* 1 or 2 if the first or the second input is at fault, else 0 */
    uint8_t detail; /* the detail of the status, as in an rtr_answer */
};

/* The result of rtr_load. Unless the status is RTR_OK, what describes data is 0. */
struct rtr_loaded {
    size_t length;    /* bytes of the data, from the front of the output; like all that describes
                         data, 0 unless the status is RTR_OK */
    size_t offset;    /* the offset of the unit at fault in the input; 0 if no unit is at fault */
    size_t wanted;    /* after RTR_SHORT, the least number of bytes needed from input + offset
                         on, as in an rtr_unit; after RTR_NO_INDEX, the least number of entries
                         that the index needs; else 0 */
    uint32_t serial;  /* the serial number of the data */
    uint32_t refresh; /* the refresh time of the data, in seconds; 0 in version 0 */
    uint32_t retry;   /* the retry time of the data, likewise */
    uint32_t expire;  /* the expire time of the data, likewise */
    uint16_t session; /* the session of the data */
    uint8_t version;  /* the protocol version of the data, and of each of their units */
    bool has_cut;     /* whether an answer was left out: the next one began before its end */
    uint8_t status;   /* the result of the call, an rtr_status, which the call returns too */
    uint8_t detail;   /* the version that RTR_OTHER_VERSION refuses; else the detail of the
                         status, as in an rtr_answer */
};

/* The result of a comparison. */
struct rtr_comparison {
    size_t offset;  /* the offset of the unit at which the call stopped, in the input of `side`;
                       0 after RTR_OK */
    size_t wanted;  /* after RTR_SHORT, the least number of bytes of that input needed from
                       `offset` on, as in an rtr_unit; else 0 */
    uint8_t status; /* the result of the call, an rtr_status, which the call returns too */
    uint8_t side;   /* an rtr_side: the input in which the call stopped; 0 after RTR_OK */
    uint8_t detail; /* the detail of the status, as in an rtr_answer */
    bool same;      /* whether both inputs mean the same; false unless the status is RTR_OK */
};

/* The result of rtr_line, rtr_json, rtr_change_line and rtr_change_json. */
struct rtr_line {
    size_t size;    /* bytes of the unit in the input */
    size_t length;  /* bytes of the whole line, even if the output is shorter */
    size_t wanted;  /* after RTR_SHORT, the least number of input bytes needed, as in an
                       rtr_unit; else 0 */
    uint8_t status; /* the result of the call, an rtr_status, which the call returns too */
    uint8_t detail; /* the detail of the status, as in an rtr_answer */
};

/* A unit of any kind. Fields that its kind doesn't have are 0. */
struct rtr_unit {
    size_t size;                /* bytes of the unit in the input, header included; also set if
                                   rtr_next returns RTR_PREFIX */
    size_t wanted;              /* if rtr_next returns RTR_SHORT, the least number of input bytes
                                   needed: 8 without a whole header, else the length of the unit */
    size_t part_start;          /* the offset in the unit of a router key's key info, an ASPA's
                                   providers, or the unit that a report encloses */
    size_t part_length;         /* the length of that part in bytes; a provider has 4, in network
                                   byte order */
    size_t text_start;          /* the offset in the unit of a report's text. A report whose
                                   inner lengths don't fit has 0 here and in part_start and both
                                   lengths */
    size_t text_length;         /* the length of a report's text in bytes; it should be UTF-8,
                                   which isn't checked */
    uint32_t asn;               /* the AS of a prefix or a router key */
    uint32_t customer;          /* the customer AS of an ASPA */
    uint32_t serial;            /* the serial number of a serial notify, a serial query or an end
                                   of data */
    uint32_t refresh;           /* the refresh time of an end of data, in seconds; 0 in version 0 */
    uint32_t retry;             /* the retry time of an end of data, likewise */
    uint32_t expire;            /* the expire time of an end of data, likewise */
    uint16_t session;           /* the session of a serial notify, a serial query, a cache
                                   response or an end of data */
    uint16_t code;              /* the error code of a report (RFC 8210 section 12) */
    uint8_t kind;               /* the kind of the unit, an rtr_kind */
    uint8_t version;            /* the protocol version of the unit */
    uint8_t action;             /* 1 if the payload is announced, 0 if it is withdrawn; 0 for
                                   what has no payload */
    uint8_t family;             /* the address family of a prefix, 4 or 6 */
    uint8_t prefix_length;      /* the length of a prefix */
    uint8_t max_length;         /* the max length of a prefix */
    uint8_t address[16];        /* the address of a prefix, in network byte order, the bits after
                                   the prefix length zero; for IPv4 the first 4 bytes */
    uint8_t key_identifier[20]; /* the subject key identifier of a router key */
    uint8_t detail;             /* if rtr_next returns a fault, its detail, as in an rtr_answer;
                                   else 0 */
};

/* The validation state of a route (RFC 6811 section 2). */
enum rtr_validity {
    RTR_NOT_FOUND = 0, /* no VRP covers the route */
    RTR_VALID = 1,     /* a VRP matches it */
    RTR_INVALID = 2,   /* VRPs cover it, and none matches */
    RTR_NO_ROUTE = 3,  /* the family is neither 4 nor 6, or the prefix length is above 32 or 128 */
    RTR_UNCHECKED = 4  /* the struct rtr_data wasn't filled by rtr_check_data */
};

/* Whether a VRP covers a route. */
enum rtr_covers {
    RTR_COVERS_NONE = 0,     /* no VRP covers it, or no further one */
    RTR_COVERS_ONE = 1,      /* a VRP covers it */
    RTR_COVERS_NO_ROUTE = 2, /* as RTR_NO_ROUTE */
    RTR_COVERS_UNCHECKED = 3 /* as RTR_UNCHECKED */
};

/* Why a VRP that covers a route doesn't match it: the first of these that holds. */
enum rtr_mismatch {
    RTR_MATCHES = 0,  /* it matches */
    RTR_AS_ZERO = 1,  /* its AS is 0, which no route may match */
    RTR_OTHER_AS = 2, /* the route's origin is another AS */
    RTR_LONGER = 3    /* the route's prefix is longer than its max length */
};

/* A route. */
struct rtr_route {
    uint32_t asn;          /* the origin AS; 0 if there is no single one, as with an AS_SET at
                              the end of the path: then no VRP matches */
    uint8_t family;        /* the address family, 4 or 6 */
    uint8_t prefix_length; /* the length of the prefix */
    uint8_t address[16];   /* the address, in network byte order, for IPv4 the first 4 bytes; the
                              bits after the prefix length are ignored */
};

/* An index of the prefixes in data. Its fields are private to the calls of the archive. */
struct rtr_tables {
    size_t ipv4, ipv6, starts[256];
    uint8_t shortest_ipv4, shortest_ipv6, shortest[256];
};

/* The index of checked data, with their length and a seal; private, too. */
struct rtr_lookup {
    size_t length, seal;
    struct rtr_tables tables;
};

/* Data in canonical form. Only rtr_check_data fills it, and its fields are private. It points at
 * the bytes, which must neither change nor move while it is used. */
struct rtr_data {
    const uint8_t *bytes;
    struct rtr_lookup lookup;
};

/* A VRP that covers a route. Its prefix is the first prefix_length bits of the route's address. */
struct rtr_covering {
    size_t place;          /* the index of the payload in the data, from 0 */
    uint32_t asn;          /* the AS of the VRP */
    uint8_t prefix_length; /* the length of its prefix */
    uint8_t max_length;    /* its max length */
    uint8_t mismatch;      /* why it doesn't match the route, an rtr_mismatch */
};

/* Returns the pointer of an input slice; for a null pointer, whose length is 0, another. */
static inline const uint8_t *rtr_readable(const uint8_t *bytes)
{
    static const uint8_t nowhere = 0;
    return bytes ? bytes : &nowhere;
}

/* The same for an output slice; with length 0 nothing is written to it. */
static inline uint8_t *rtr_writable(uint8_t *bytes)
{
    static uint8_t nowhere;
    return bytes ? bytes : &nowhere;
}

/* Normalises the sequence at the start of the input: reads payload units up to an end of data, and
 * writes the form of what each means, and the end of data, to the start of the output.
 *
 * At most `limit` units are read, the end of data included; UINT64_MAX allows all. The call returns
 * RTR_OK if and only if the input begins with fewer than `limit` acceptable payload units and an
 * end of data, and the output is at least as long as their form. Then all of these were read and
 * their form was written. What follows in the input isn't read.
 *
 * Otherwise the call stopped before a unit, no byte of which counts as taken: output[0 .. written)
 * is the form of input[0 .. taken), whole units. RTR_TOO_MANY is checked first, then RTR_SHORT to
 * RTR_PREFIX, then RTR_NO_ROOM. To resume, call again at input + taken:
 *   - after RTR_NO_ROOM with a larger output, and after RTR_SHORT with more input, with `units`
 *     subtracted from the limit;
 *   - after RTR_TOO_MANY with another limit.
 *
 * The rest of the output is unchanged. An output at least as long as the input always suffices:
 * then the call never returns RTR_NO_ROOM. Two sequences have the same form if and only if they
 * mean the same. */
static inline uint8_t rtr_normalise_slice(const uint8_t *input, size_t input_length,
                                          uint8_t *output, size_t output_length, uint64_t limit,
                                          struct rtr_answer *answer)
{
    return rtr_normalise_slice_nonnull(rtr_readable(input), input_length,
                                       rtr_writable(output), output_length, limit, answer);
}

/* As rtr_normalise_slice, for clients of one protocol version. Units that the version doesn't have
 * are checked and counted in `units` but not written. All others, and the end of data, are written
 * in this version. Version 0 has prefixes, version 1 also router keys, version 2 also ASPAs.
 *
 * An end of data has 12 bytes in version 0 and 24 in versions 1 and 2, so an end of data that came
 * in version 0 grows. An output at least 12 bytes longer than the input always suffices.
 *
 * For a version above 2 the call returns RTR_UNIT_VERSION before any other fault, with that version
 * as `detail` and nothing taken or written. */
static inline uint8_t rtr_normalise_for_slice(const uint8_t *input, size_t input_length,
                                              uint8_t *output, size_t output_length, uint64_t limit,
                                              uint8_t version, struct rtr_answer *answer)
{
    return rtr_normalise_for_slice_nonnull(rtr_readable(input), input_length,
                                           rtr_writable(output), output_length, limit, version,
                                           answer);
}

/* Reads the length of the unit at the start of the input from its header; the rest may be missing.
 * The length of a unit of fixed size is that of its type; of a router key, a report or an ASPA it
 * is at most 65535. No other length is returned.
 *
 * RTR_OK with the length in `size`; RTR_SHORT for fewer than the 8 bytes of a header, with 8, the
 * bytes needed, in `size`; or RTR_UNIT_TYPE to RTR_EMPTY_PROVIDERS with 0 in `size` and the detail
 * in `detail`, which is 0 otherwise. */
static inline uint8_t rtr_unit_size(const uint8_t *input, size_t input_length, size_t *size,
                                    uint8_t *detail)
{
    return rtr_unit_size_nonnull(rtr_readable(input), input_length, size, detail);
}

/* Decodes the unit at the start of the input. The next unit begins `size` bytes later; its bytes
 * are ignored. Only fixed fields are copied: key info, providers, and the unit that a report
 * encloses are input[part_start .. part_start + part_length), unchanged, even of a withdrawal, and
 * the text of a report is input[text_start .. text_start + text_length).
 *
 * RTR_OK; or, with all fields 0 except `detail`, RTR_SHORT to RTR_PREFIX. After RTR_SHORT `wanted`
 * is set, too, and after RTR_PREFIX `size`, so that a caller can skip the unit. */
static inline uint8_t rtr_next(const uint8_t *input, size_t input_length, struct rtr_unit *unit)
{
    return rtr_next_nonnull(rtr_readable(input), input_length, unit);
}

/* Decodes the units at the start of the input, each as rtr_next: the first into units[0], the next
 * into units[1] and so on, until the array is full or a unit is refused. Sets `count` to the number
 * of decoded units, and `taken` to their bytes. Offsets of parts count from the start of each unit.
 *
 * RTR_OK if the array is full; or the status of the next unit, RTR_SHORT to RTR_PREFIX, with
 * units[count] as rtr_next sets it. So whole units that don't fill the array end with RTR_SHORT,
 * and all of the input taken. Later elements are unchanged. */
static inline uint8_t rtr_next_many(const uint8_t *input, size_t input_length,
                                    struct rtr_unit *units, size_t units_length, size_t *count,
                                    size_t *taken)
{
    static struct rtr_unit nowhere;
    return rtr_next_many_nonnull(rtr_readable(input), input_length,
                                 units ? units : &nowhere, units_length, count, taken);
}

/* Writes the line that the program rtr_list prints for the unit at the start of the input, at this
 * offset, in ASCII, without a newline or a terminating 0. Like that program it shows a prefix whose
 * lengths break their rule, which rtr_next refuses. The next unit begins `size` bytes later.
 *
 * RTR_OK; or, in this order, RTR_SHORT to RTR_EMPTY_PROVIDERS, with nothing written; RTR_NO_ROOM,
 * with the start of the line in the output, and the number of bytes needed in `length`. */
static inline uint8_t rtr_line(const uint8_t *input, size_t input_length, uint64_t offset,
                               uint8_t *output, size_t output_length, struct rtr_line *answer)
{
    return rtr_line_nonnull(rtr_readable(input), input_length, offset,
                            rtr_writable(output), output_length, answer);
}

/* Writes the JSON object that rtr_list --json prints for the unit, in UTF-8. Otherwise as
 * rtr_line. */
static inline uint8_t rtr_json(const uint8_t *input, size_t input_length, uint64_t offset,
                               uint8_t *output, size_t output_length, struct rtr_line *answer)
{
    return rtr_json_nonnull(rtr_readable(input), input_length, offset,
                            rtr_writable(output), output_length, answer);
}

/* Writes the line of a payload unit's change, as the program rtr_diff prints it, such as "+ IPv4
 * prefix 192.0.2.0/23-26 AS65551"; nothing for any other unit, with length 0. Otherwise as
 * rtr_line. */
static inline uint8_t rtr_change_line(const uint8_t *input, size_t input_length,
                                      uint8_t *output, size_t output_length,
                                      struct rtr_line *answer)
{
    return rtr_change_line_nonnull(rtr_readable(input), input_length,
                                   rtr_writable(output), output_length, answer);
}

/* Writes the JSON object that rtr_diff --json prints for the change. Otherwise as rtr_line. */
static inline uint8_t rtr_change_json(const uint8_t *input, size_t input_length,
                                      uint8_t *output, size_t output_length,
                                      struct rtr_line *answer)
{
    return rtr_change_json_nonnull(rtr_readable(input), input_length,
                                   rtr_writable(output), output_length, answer);
}

/* Writes the text of a status with its detail, such as "unit type 5 is not allowed here", in ASCII
 * without a terminating 0; any numbers may be passed.
 *
 * RTR_OK; or RTR_NO_ROOM, with the start of the text in the output. `length` is that of the whole
 * text. */
static inline uint8_t rtr_text(uint8_t status, uint8_t detail,
                               uint8_t *output, size_t output_length, size_t *length)
{
    return rtr_text_nonnull(status, detail, rtr_writable(output), output_length, length);
}

/* Writes the text of a status with its detail, and the offset of the unit that is refused, such as
 * "invalid unit length, at byte 20". Otherwise as rtr_text. */
static inline uint8_t rtr_text_at(uint8_t status, uint8_t detail, uint64_t offset,
                                  uint8_t *output, size_t output_length, size_t *length)
{
    return rtr_text_at_nonnull(status, detail, offset, rtr_writable(output), output_length, length);
}

/* Writes what a peer's error report says, by its code and its text, `reported`: the name of the
 * code, and if the text isn't empty, its first RTR_MOST_QUOTED bytes in quotes, of which any but
 * printable ASCII is a question mark: `No Data Available, "later"`. Otherwise as rtr_text. */
static inline uint8_t rtr_report_text(uint16_t code,
                                      const uint8_t *reported, size_t reported_length,
                                      uint8_t *output, size_t output_length, size_t *length)
{
    return rtr_report_text_nonnull(code, rtr_readable(reported), reported_length,
                                   rtr_writable(output), output_length, length);
}

/* Writes the name of a number, as `named`, an rtr_named, selects: of a status, a kind, a cause, a
 * reason or an error code; or the text of a rule on times. A number without a name gets a text such
 * as "type 5" or "error code 12"; for any other `named` the text is empty. Otherwise as
 * rtr_text. */
static inline uint8_t rtr_name(uint8_t named, uint16_t number,
                               uint8_t *output, size_t output_length, size_t *length)
{
    return rtr_name_nonnull(named, number, rtr_writable(output), output_length, length);
}

/* Reports whether the unit is an ASPA with a provider at this index, from 0, and sets `provider` to
 * it, or else to 0. The input is the one from whose start part_start counts. */
static inline bool rtr_provider(const struct rtr_unit *unit,
                                const uint8_t *input, size_t input_length, size_t index,
                                uint32_t *provider)
{
    return rtr_provider_nonnull(unit, rtr_readable(input), input_length, index, provider);
}

/* Reports whether the peer is owed an error report for this status of rtr_next, rtr_unit_size or a
 * sequence; the input begins with the unit at fault. Sets `code` to the error code of the report
 * (RFC 8210 section 12), or else to 0:
 *
 *   RTR_SHORT            0, corrupt data
 *   RTR_UNIT_TYPE        5, unsupported PDU type
 *   RTR_UNIT_VERSION     4, unsupported protocol version
 *   RTR_TOO_LONG         0, corrupt data
 *   RTR_UNIT_LENGTH      0, corrupt data
 *   RTR_EMPTY_PROVIDERS  9, ASPA provider list error: this code is the Rust crate rpki's, and RFC
 *                        8210 doesn't have it
 *   RTR_PREFIX           0, corrupt data
 *   RTR_DUPLICATE        7, duplicate announcement received
 *   RTR_UNKNOWN          6, withdrawal of unknown record
 *
 * No report is owed for any other status, nor for a unit that is itself a report (section 5.11). */
static inline bool rtr_error_code(uint8_t status, const uint8_t *input, size_t input_length,
                                  uint16_t *code)
{
    return rtr_error_code_nonnull(status, rtr_readable(input), input_length, code);
}

/* Returns the order of two serial numbers, an rtr_order. */
uint8_t rtr_serial_order(uint32_t left, uint32_t right);

/* Reports whether a protocol version has units of this kind: 0 has all but router keys and ASPAs, 1
 * all but ASPAs, 2 all, and versions above 2 none. Other calls only check the version of an end of
 * data; to check that of other units, use this call. */
bool rtr_version_has(uint8_t version, uint8_t kind);

/* Returns the first rule that these times in seconds break, an rtr_time_rule; RTR_TIME_RULE_NONE if
 * a cache may send them. */
uint8_t rtr_times_rule(uint32_t refresh, uint32_t retry, uint32_t expire);

/* Returns the first rule that the times of an end of data of this version break, as rtr_times_rule:
 * RTR_TIME_RULE_NONE in version 0, which has no times. */
uint8_t rtr_end_rule(uint8_t version, uint32_t refresh, uint32_t retry, uint32_t expire);

/* Returns the version of the archive; RTR_WIRE_VERSION_NUMBER is that of the header. */
uint32_t rtr_wire_version(void);

/* Writes the form of the unit to the start of the output, and its length to `written`: at most
 * 65535. Key info, providers, and the unit that a report encloses are input[part_start ..
 * part_start + part_length), and its text is input[text_start .. text_start + text_length). An
 * address is written with the bits after the prefix length zero, a withdrawn ASPA without
 * providers, and an end of data of version 0 without timings. `size`, `wanted`, `detail` and fields
 * that the kind doesn't have are ignored, and so is the input unless the kind has one of these
 * parts.
 *
 * A report that is too long isn't truncated: pass a shorter part_length or text_length, together at
 * most 65519 bytes.
 *
 * RTR_OK; or, with nothing written and `written` 0, in this order:
 *   RTR_UNIT_TYPE        `kind` is no rtr_kind
 *   RTR_NO_FORM          `action` is above 1, or above 0 for what has no payload; `family` isn't
 *                        that of the kind; a part or a text lies outside of the input
 *   RTR_PREFIX           the lengths of a prefix break a rule; which one isn't reported
 *   RTR_TOO_LONG         more than 65503 bytes of key info, 65519 of unit and text of a report or,
 *                        announced, 65520 of providers
 *   RTR_UNIT_LENGTH      announced providers that aren't 4 bytes each
 *   RTR_EMPTY_PROVIDERS  an ASPA is announced without providers
 *   RTR_UNIT_VERSION     an end of data of a version above 2
 *   RTR_NO_ROOM          the output is shorter than the form */
static inline uint8_t rtr_write_unit(const struct rtr_unit *unit,
                                     const uint8_t *input, size_t input_length,
                                     uint8_t *output, size_t output_length, size_t *written)
{
    return rtr_write_unit_nonnull(unit, rtr_readable(input), input_length,
                                  rtr_writable(output), output_length, written);
}

/* Reports whether both inputs begin with sequences that mean the same, of fewer than `limit`
 * payload units each.
 *
 * RTR_OK, with the result in `same`. Otherwise the status is RTR_SHORT to RTR_PREFIX or
 * RTR_TOO_MANY: that of the left input, or if the left one is accepted, that of the right one.
 * `side` is the input at fault, and `offset` the unit in it at which rtr_normalise_slice stops. */
static inline uint8_t rtr_same_meaning(const uint8_t *left, size_t left_length,
                                       const uint8_t *right, size_t right_length, uint64_t limit,
                                       struct rtr_comparison *answer)
{
    return rtr_same_meaning_nonnull(rtr_readable(left), left_length,
                                    rtr_readable(right), right_length, limit, answer);
}

/* Data and changes in canonical form.
 *
 * Changes are a sequence: payload units, and an end of data. They are in canonical form if all
 * units are of one version, announcements come before withdrawals, each group in the order of
 * payloads, and no two units name the same payload (for ASPAs, the same customer). The order of
 * payloads is: origins, then router keys, then ASPAs; origins have IPv4 before IPv6, then go by
 * address, prefix length, max length and ASN; router keys by key identifier, ASN and key info;
 * ASPAs by customer.
 *
 * Data, as a cache or its router holds them, are changes in canonical form that withdraw nothing.
 * An end of data alone is data without payloads; rtr_write_unit writes one.
 *
 * Bytes after the end of data in an input are ignored. */

/* Writes the delta from the old data to the new (RFC 8210 section 8.2): changes in canonical form,
 * with the end of data of the new data. An output of old_data_length + new_data_length bytes always
 * suffices. rtr_apply turns the old data into the new with it.
 *
 * RTR_OK; or, in this order,
 *   RTR_SHORT to RTR_PREFIX, RTR_NOT_CANONICAL   the first fault of the old data (side 1), or else
 *                                                of the new (side 2)
 *   RTR_UNIT_VERSION                             the new data are of another version than the old:
 *                                                of `detail`
 *   RTR_OTHER_SESSION                            the new data are of another session than the old
 *   RTR_NO_ROOM                                  the output is shorter than the delta */
static inline uint8_t rtr_delta(const uint8_t *old_data, size_t old_data_length,
                                const uint8_t *new_data, size_t new_data_length,
                                uint8_t *output, size_t output_length,
                                struct rtr_data_answer *answer)
{
    return rtr_delta_nonnull(rtr_readable(old_data), old_data_length,
                             rtr_readable(new_data), new_data_length,
                             rtr_writable(output), output_length, answer);
}

/* Writes the changes from the old data to the new, of whatever versions and sessions: as rtr_delta,
 * in the higher of both versions, and with the end of data of the new data in that version; those
 * of version 0 get the recommended times in a later one. An empty input stands for no data: then
 * all of the other is announced or withdrawn, with its end of data. An output of old_data_length +
 * new_data_length bytes always suffices.
 *
 * RTR_OK; or, in this order,
 *   RTR_SHORT to RTR_PREFIX, RTR_NOT_CANONICAL   the first fault of the old data (side 1), or else
 *                                                of the new (side 2); RTR_SHORT with side 2 if both
 *                                                are empty
 *   RTR_NO_ROOM                                  the output is shorter than the changes */
static inline uint8_t rtr_changes_between(const uint8_t *old_data, size_t old_data_length,
                                          const uint8_t *new_data, size_t new_data_length,
                                          uint8_t *output, size_t output_length,
                                          struct rtr_data_answer *answer)
{
    return rtr_changes_between_nonnull(rtr_readable(old_data), old_data_length,
                                       rtr_readable(new_data), new_data_length,
                                       rtr_writable(output), output_length, answer);
}

/* Applies the changes to the data, and writes the result: data in canonical form, with the end of
 * data of the changes. All changes are applied, or none. An announced ASPA replaces that of its
 * customer, and so is never RTR_DUPLICATE. An output of data_length + changes_length bytes always
 * suffices.
 *
 * RTR_OK; or, in this order,
 *   RTR_SHORT to RTR_PREFIX, RTR_NOT_CANONICAL   the first fault of the data (side 1), or else of
 *                                                the changes (side 2)
 *   RTR_UNIT_VERSION                             the changes are of another version than the data:
 *                                                of `detail`
 *   RTR_OTHER_SESSION                            the changes are of another session than the data
 *   RTR_DUPLICATE, RTR_UNKNOWN                   the first change that the rules refuse (side 2),
 *                                                at `offset`
 *   RTR_NO_ROOM                                  the output is shorter than the data */
static inline uint8_t rtr_apply(const uint8_t *data, size_t data_length,
                                const uint8_t *changes, size_t changes_length,
                                uint8_t *output, size_t output_length,
                                struct rtr_data_answer *answer)
{
    return rtr_apply_nonnull(rtr_readable(data), data_length, rtr_readable(changes), changes_length,
                             rtr_writable(output), output_length, answer);
}

/* Applies the changes of an answer to the data in the order in which they came, and writes the
 * result: data in canonical form, with the end of data of the changes. All changes are applied, or
 * none. An announced ASPA replaces that of its customer. An output of data_length + changes_length
 * bytes always suffices.
 *
 * The data are in canonical form. The changes are a sequence, as a cache sends it after its
 * response: payload units in any order and an end of data, all of one version.
 *
 * The index is working memory: as many entries as the changes have payload units. Its contents
 * afterwards are unspecified.
 *
 * RTR_OK; or, in this order,
 *   RTR_SHORT to RTR_PREFIX, RTR_NOT_CANONICAL   the first fault of the data (side 1), or else of
 *                                                the changes (side 2), where RTR_NOT_CANONICAL is
 *                                                for a unit of another version than those before it
 *   RTR_UNIT_VERSION                             the changes are of another version than the data:
 *                                                of `detail`
 *   RTR_OTHER_SESSION                            the changes are of another session than the data
 *   RTR_NO_INDEX                                 the index has fewer entries than the changes have
 *                                                payload units
 *   RTR_DUPLICATE, RTR_UNKNOWN                   the first change, as they came, that announces a
 *                                                payload which is present then, or withdraws one
 *                                                which isn't (side 2), at `offset`: rtr_error_code
 *                                                returns 7 or 6 (RFC 8210 section 12)
 *   RTR_NO_ROOM                                  the output is shorter than the data */
static inline uint8_t rtr_apply_in_order(const uint8_t *data, size_t data_length,
                                         const uint8_t *changes, size_t changes_length,
                                         size_t *index, size_t index_length,
                                         uint8_t *output, size_t output_length,
                                         struct rtr_data_answer *answer)
{
    static size_t nowhere;
    return rtr_apply_in_order_nonnull(rtr_readable(data), data_length,
                                      rtr_readable(changes), changes_length,
                                      index ? index : &nowhere, index_length,
                                      rtr_writable(output), output_length, answer);
}

/* Writes the sequence at the start of the input in canonical form: the net effect of its changes,
 * applied one after the other. Caches send deltas in any order, and rtr_apply only takes the
 * canonical form; to apply changes without comparing or showing them, rtr_apply_in_order is enough.
 * If all of the changes are allowed one after the other, rtr_apply makes the same data of this
 * output. An output as long as the input always suffices.
 *
 * The index is working memory: as many entries as there are payload units. Its contents afterwards
 * are unspecified.
 *
 * RTR_OK; or, in this order,
 *   RTR_SHORT to RTR_PREFIX,          the first fault of the input (side 1)
 *   RTR_NOT_CANONICAL                 or a unit of another version than those before it
 *   RTR_NO_INDEX                      the index has fewer entries than there are payload units
 *   RTR_DUPLICATE, RTR_UNKNOWN        a payload is announced, or withdrawn, twice in a row, which
 *                                     the rules never allow (side 1, the second unit)
 *   RTR_UNDECIDED                     the first change to a customer's ASPA announces it, and the
 *                                     last withdraws it (side 1, the last)
 *   RTR_NO_ROOM                       the output is shorter than the result
 * Of several units that RTR_DUPLICATE, RTR_UNKNOWN and RTR_UNDECIDED refuse, the first in the order
 * of payloads is reported. An ASPA is never RTR_DUPLICATE: of two announcements the later one
 * counts. */
static inline uint8_t rtr_order(const uint8_t *input, size_t input_length,
                                size_t *index, size_t index_length,
                                uint8_t *output, size_t output_length,
                                struct rtr_data_answer *answer)
{
    static size_t nowhere;
    return rtr_order_nonnull(rtr_readable(input), input_length,
                             index ? index : &nowhere, index_length,
                             rtr_writable(output), output_length, answer);
}

/* Loads a recording or a list: writes the data that it leaves in canonical form, whatever the order
 * of its payload units. A list is payload units and an end of data. A recording is what a cache
 * sent, with or without the router's queries, of one answer or several, each with or without a
 * cache response; as in a router, an answer changes the data before it only in the same session and
 * unless all data were asked for (RFC 8210 sections 5.1, 5.3 to 5.5, 5.9 and 8). An answer that the
 * next cache response cuts off is left out, and `has_cut` reports it. Serial notifies, and error
 * reports between answers, are ignored. The input is loaded to its end: only units may follow.
 *
 * The index and `work` are working memory: the index has an element for each payload unit of the
 * longest answer, and `work` and the output are as long as the data of each answer.
 * input_length / RTR_SHORTEST_PAYLOAD elements, and input_length bytes each for `work` and for the
 * output, always suffice. The contents of index and `work` are unspecified afterwards; so is the
 * output behind `length`, and after a refusal all of it.
 *
 * RTR_OK; or, of the first unit at which loading can't go on, with its offset:
 *   RTR_SHORT to RTR_PREFIX      it can't be read, as rtr_next refuses it. RTR_SHORT at the end of
 *                                the input: an answer has no end of data, or there is no answer
 *   RTR_DUPLICATE, RTR_UNKNOWN   it announces what is there, and isn't an ASPA, or withdraws what
 *                                isn't there (RFC 8210 section 12)
 *   RTR_OTHER_VERSION            it is a payload unit or an end of data of another version than the
 *                                units before it in its answer, or than the data that this changes.
 *                                rtr_list --vrps takes answers of several versions
 *   RTR_OTHER_SESSION            it is an end of data of another session than its answer
 *   RTR_OLD_SERIAL               it is an end of data whose serial number comes before that of the
 *                                data that its answer changes (RFC 1982)
 *   RTR_RESET_INSIDE             it is a cache reset, and an answer is open
 *   RTR_REPORT_INSIDE            it is an error report, and an answer is open
 * or, of a buffer, with offset 0:
 *   RTR_NO_INDEX                 the index is too short for the payload units of an answer
 *   RTR_NO_ROOM                  `work` or the output is too short for the data of an answer */
static inline uint8_t rtr_load(const uint8_t *input, size_t input_length,
                               size_t *index, size_t index_length,
                               uint8_t *work, size_t work_length,
                               uint8_t *output, size_t output_length, struct rtr_loaded *loaded)
{
    static size_t nowhere;
    return rtr_load_nonnull(rtr_readable(input), input_length,
                            index ? index : &nowhere, index_length, rtr_writable(work), work_length,
                            rtr_writable(output), output_length, loaded);
}

/* Route origin validation (RFC 6811 section 2) by the prefixes of data in canonical form, as
 * rtr_load, rtr_apply_in_order and rtr_apply write them; a prefix with its AS is called a VRP here:
 *
 *   struct rtr_data data;
 *   if (rtr_check_data(bytes, length, &data, &answer) != RTR_OK)
 *       say rtr_status_text(answer.status) at answer.offset
 *   for each route:
 *       rtr_validate(&data, &route)
 *   or, for many routes in one call:
 *       rtr_validate_many(&data, routes, count, validities)
 *
 * Any number of threads may look up routes at once. A struct rtr_data that rtr_check_data didn't
 * fill, such as a zeroed one, is refused. It is only for the bytes that were checked: after they
 * change, check them again.
 *
 * A VRP covers a route if the route's prefix lies in its own; it matches the route if it covers it,
 * its AS is the route's and isn't 0, and the route's prefix length is at most its max length. */

/* Returns the offset of the end of data in data in canonical form: 0 if they have no payloads. The
 * bytes aren't checked: for any other bytes it returns an offset within them. */
static inline size_t rtr_end_offset(const uint8_t *data, size_t data_length)
{
    return rtr_end_offset_nonnull(rtr_readable(data), data_length);
}

/* Checks that the bytes begin with data in canonical form, and indexes them for lookups, in two
 * passes. Bytes after the end of data are ignored. The caller still owns the bytes.
 *
 * RTR_OK; or the first fault (side 1), and `data` is refused by the calls below:
 *   RTR_SHORT to RTR_PREFIX  the unit at `offset` is refused
 *   RTR_NOT_CANONICAL        a unit that withdraws, isn't after the one before it in the order of
 *                            payloads, or isn't of its version; or an end of data of another
 *                            version. A leading cache response is RTR_UNIT_TYPE at offset 0 */
static inline uint8_t rtr_check_data(const uint8_t *bytes, size_t length, struct rtr_data *data,
                                     struct rtr_data_answer *answer)
{
    data->bytes = rtr_readable(bytes);
    return rtr_check_data_nonnull(data->bytes, length, &data->lookup, answer);
}

/* Returns the validity of a route, an rtr_validity. */
static inline uint8_t rtr_validate(const struct rtr_data *data, const struct rtr_route *route)
{
    return rtr_validate_nonnull(rtr_readable(data->bytes), data->lookup.length, &data->lookup,
                                route);
}

/* Validates many routes: writes what rtr_validate returns for each to `validities`, in the same
 * order, and returns how many these are: `count`, the length of both arrays. Only the file for
 * other platforms may return fewer, where it has no memory to copy routes to: call it again for the
 * rest. The routes may come in any order; it is fastest if those of each family are in the order of
 * their addresses, as in a routing table. */
static inline size_t rtr_validate_many(const struct rtr_data *data,
                                       const struct rtr_route *routes, size_t count,
                                       uint8_t *validities)
{
    static struct rtr_route nowhere;
    return rtr_validate_many_nonnull(rtr_readable(data->bytes), data->lookup.length, &data->lookup,
                                     routes ? routes : &nowhere, count,
                                     rtr_writable(validities), count);
}

/* Finds the first VRP that covers the route among the payloads from index `from` on, counted from
 * 0, and returns an rtr_covers: after RTR_COVERS_ONE the VRP is in `covering`, which is all zero
 * otherwise. To see all of them, in the order of payloads, call again with covering->place + 1. */
static inline uint8_t rtr_covering(const struct rtr_data *data, const struct rtr_route *route,
                                   size_t from, struct rtr_covering *covering)
{
    return rtr_covering_nonnull(rtr_readable(data->bytes), data->lookup.length, &data->lookup,
                                route, from, covering);
}

/* The rules that the program rtr_list checks with --check, unit by unit, in the units that rtr_line
 * accepts. The struct rtr_check is the state of the sequence that is being read; all of it is 0
 * before the first unit. Whether a payload is announced twice depends on all that the answer
 * announced before, which the caller keeps as a set of names:
 *
 *   struct rtr_check check = {0};
 *   for each unit:
 *       rtr_check_name(unit.., name.., &named);
 *       rtr_check_unit(&check, unit.., whether the set has the name, &checked);
 *       say what is in checked.findings
 *       if named.begins, empty the set
 *       put the name into the set if named.announces, and else take it out
 *   rtr_check_end(&check, &finding);
 *
 * The findings are then exactly those of the program. A name has at most 65528 bytes, and only
 * identifies its payload. */

/* A rule that a unit breaks. */
enum rtr_rule {
    RTR_RULE_NONE = 0,
    RTR_RULE_RESERVED = 1,             /* the byte at `value` has to be zero */
    RTR_RULE_FLAGS = 2,                /* all bits of the flags but the lowest have to be zero */
    RTR_RULE_PREFIX_LENGTH = 3,        /* the prefix length is at most 32 or 128 */
    RTR_RULE_MAX_LENGTH = 4,           /* the max length is at most 32 or 128 */
    RTR_RULE_MAX_BELOW = 5,            /* the max length is no less than the prefix length */
    RTR_RULE_HOST_BITS = 6,            /* a prefix has no bits after its length */
    RTR_RULE_VERSION = 7,              /* the version, `value`, is that of the sequence, `begun` */
    RTR_RULE_SESSION = 8,              /* the session, `value`, is that of the answer, `begun` */
    RTR_RULE_CUT_OFF = 9,              /* an answer ends with an end of data */
    RTR_RULE_NO_ANSWER = 10,           /* a recording has an end of data */
    RTR_RULE_LACKS = 11,               /* the version, `value`, has such units */
    RTR_RULE_WITHDRAWN_PROVIDERS = 12, /* a withdrawn ASPA has no providers; with `value` 1 the
                                          unit reads as one of an older draft */
    RTR_RULE_TWICE = 13,               /* a payload is announced once */
    RTR_RULE_PROVIDER_ORDER = 14,      /* providers ascend */
    RTR_RULE_REPORT_PARTS = 15,        /* the lengths inside an error report add up to its length */
    RTR_RULE_REPORT_TEXT = 16,         /* the text of an error report is UTF-8 */
    RTR_RULE_REPORT_OF_REPORT = 17,    /* no error report is about an error report */
    RTR_RULE_TIMES = 18                /* a cache may send the times: the rule that they break is
                                          `value`, an rtr_time_rule */
};

struct rtr_check {
    uint16_t session;
    uint8_t version;
    bool has_session, has_version;
    uint8_t stage;
};

struct rtr_finding {
    uint16_t value; /* the value that enum rtr_rule describes for this rule; else 0 */
    uint16_t begun; /* what the sequence or the answer began with, if enum rtr_rule names it;
                       else 0 */
    uint8_t rule;   /* the rule that is broken, an rtr_rule */
};

/* The result of rtr_check_unit. */
struct rtr_checked {
    size_t size;    /* bytes of the unit in the input */
    size_t wanted;  /* after RTR_SHORT, the least number of input bytes needed, as in an
                       rtr_unit; else 0 */
    struct rtr_finding findings[7]; /* the broken rules, in the order of rtr_list's lines;
                                       RTR_RULE_NONE may be between them */
    uint8_t status; /* the result of the call, an rtr_status, which the call returns too */
    uint8_t detail; /* the detail of the status, as in an rtr_answer */
};

/* The result of rtr_check_name. */
struct rtr_naming {
    size_t size;    /* bytes of the unit in the input */
    size_t length;  /* bytes of the name, even if the output is shorter; 0 if the unit names no
                       payload */
    size_t wanted;  /* after RTR_SHORT, the least number of input bytes needed, as in an
                       rtr_unit; else 0 */
    uint8_t status; /* the result of the call, an rtr_status, which the call returns too */
    uint8_t detail; /* the detail of the status, as in an rtr_answer */
    bool begins;    /* whether the unit begins a sequence */
    bool announces; /* whether the payload is announced */
};

/* Writes the name of the payload that the unit at the start of the input announces or withdraws.
 * The next unit begins `size` bytes later.
 *
 * RTR_OK; or, in this order, RTR_SHORT to RTR_EMPTY_PROVIDERS, with nothing written; RTR_NO_ROOM,
 * with the number of bytes needed in `length`. */
static inline uint8_t rtr_check_name(const uint8_t *input, size_t input_length,
                                     uint8_t *output, size_t output_length,
                                     struct rtr_naming *answer)
{
    return rtr_check_name_nonnull(rtr_readable(input), input_length,
                                  rtr_writable(output), output_length, answer);
}

/* Finds the rules that the unit at the start of the input breaks; `was_there` is whether the
 * caller's set had the name before. RTR_OK; or RTR_SHORT to RTR_EMPTY_PROVIDERS, with no findings,
 * and `check` unchanged. */
static inline uint8_t rtr_check_unit(struct rtr_check *check,
                                     const uint8_t *input, size_t input_length, bool was_there,
                                     struct rtr_checked *answer)
{
    return rtr_check_unit_nonnull(check, rtr_readable(input), input_length, was_there, answer);
}

/* Finds what is missing at the end of the input; RTR_RULE_NONE if nothing is. */
void rtr_check_end(const struct rtr_check *check, struct rtr_finding *finding);

/* Writes the line that rtr_list prints for a finding at the unit with this offset, in ASCII,
 * without a newline or a terminating 0, truncated to the output, and returns its whole length: at
 * most 128 bytes. For what is missing at the end of the input the offset is the input's length. */
static inline size_t rtr_finding_line(const struct rtr_finding *finding, uint64_t offset,
                                      uint8_t *output, size_t output_length)
{
    return rtr_finding_line_nonnull(finding, offset, rtr_writable(output), output_length);
}

/* The router's end of the protocol: a state machine without sockets, a clock or memory (RFC 8210;
 * docs/SESSIONS.md has its states). A program has a struct rtr_router for each cache, tells it what
 * happens, and carries out the action that the call returns:
 *
 *   RTR_WAIT     do nothing until bytes arrive or the time is rtr_router_wakes
 *   RTR_CONNECT  open a connection; then call rtr_router_connected or rtr_router_lost
 *   RTR_ASK      send what rtr_router_query writes
 *   RTR_BEGIN    discard the units that were kept: a response begins
 *   RTR_KEEP     append the first `taken` bytes of the input to the units that were kept
 *   RTR_APPLY    apply the units that were kept, with the end of data at `start` of the input, by
 *                rtr_apply_in_order: to the data if `changes`, else to data without payloads. Then
 *                call rtr_router_applied or rtr_router_not_applied
 *   RTR_SHOW     the result of that is the data now
 *   RTR_NO_DATA  the cache has no data yet; the router will ask again
 *   RTR_DROP     drop the data: they have expired
 *   RTR_END      drop the data if `drops`, send what rtr_router_report writes if `reports`, and
 *                close the connection, or give up connecting; `cause` is the reason
 *
 * After each action but RTR_WAIT it calls rtr_router_tick, and rtr_router_read with the input after
 * `taken`, until both return RTR_WAIT with nothing taken. After RTR_END it reports nothing more of
 * that connection. Times are in milliseconds, by a monotonic clock, and below 2^63. A struct is
 * plain data: it may be copied and read. */

/* The states of a router, in `phase` of its struct. */
enum rtr_phase {
    RTR_PHASE_OFFLINE = 0,    /* there is no connection */
    RTR_PHASE_CONNECTING = 1, /* a connection is being made */
    RTR_PHASE_ASKED = 2,      /* waiting for an answer */
    RTR_PHASE_READING = 3,    /* reading a response */
    RTR_PHASE_APPLYING = 4,   /* its changes are being applied */
    RTR_PHASE_WAITING = 5     /* idle until a notify comes or it is time to ask */
};

/* What a program may set. Times are in milliseconds. */
struct rtr_settings {
    uint64_t most_bytes;     /* the most bytes of an answer's payload units; default 128 MiB */
    uint32_t pause;          /* the least time between two queries or connections; default 1 s */
    uint32_t connect_limit;  /* the time limit for connecting; default 30 seconds */
    uint32_t response_limit; /* the time limit from a query to its end of data; default 2 minutes */
    uint32_t refresh;        /* the refresh time, used instead of the cache's (RFC 8210 section
                                6) if it isn't 0 */
    uint32_t retry;          /* the retry time, likewise */
    uint32_t expire;         /* the expire time, likewise */
    uint32_t most_units;     /* the most payload units of an answer; default 4 million */
    uint16_t chance;         /* a random number: growing waits are shortened by chance / 131072 */
    uint8_t highest;         /* the version in which a connection begins: 0, 1 or 2 */
};

/* The session, serial number and version of data, and their times in seconds. */
struct rtr_known {
    uint32_t serial;  /* the serial number of the data */
    uint32_t refresh; /* the refresh time of the data, in seconds */
    uint32_t retry;   /* the retry time of the data, in seconds */
    uint32_t expire;  /* the expire time of the data, in seconds */
    uint16_t session; /* the session of the data */
    uint8_t version;  /* the protocol version of the data */
};

struct rtr_router {
    struct rtr_settings settings;
    uint64_t expires, came, asked, tried, due, rises, bytes;
    struct rtr_known known; /* the session, serial number and times of the data, if `has_data` */
    struct rtr_known answer;
    uint32_t wait, rise_wait;
    uint32_t units;         /* the number of payload units of the response so far */
    uint32_t note;
    uint16_t session;
    uint8_t phase;          /* the state of the router, an rtr_phase; any other number stands for
                               RTR_PHASE_OFFLINE */
    uint8_t version, floor;
    bool agreed, fell, silent, changes, resync, answered, noted, has_data;
};

enum rtr_action_kind {
    RTR_WAIT = 0,
    RTR_CONNECT = 1,
    RTR_ASK = 2,
    RTR_BEGIN = 3,
    RTR_KEEP = 4,
    RTR_APPLY = 5,
    RTR_SHOW = 6,
    RTR_NO_DATA = 7,
    RTR_DROP = 8,
    RTR_END = 9
};

/* Why a connection ends; rtr_cause_text returns the text. */
enum rtr_cause {
    RTR_CAUSE_LOST = 0,
    RTR_CAUSE_SLOW = 1,
    RTR_CAUSE_FAULTY = 2,       /* a unit is refused, for `status` */
    RTR_CAUSE_REPORTED = 3,     /* the cache reports an error, in the unit from `start` to
                                   `taken` */
    RTR_CAUSE_OUT_OF_PLACE = 4,
    RTR_CAUSE_NO_SUCH_PAYLOAD = 5,
    RTR_CAUSE_OTHER_VERSION = 6,
    RTR_CAUSE_HIGHER_VERSION = 7,
    RTR_CAUSE_OTHER_SESSION = 8,
    RTR_CAUSE_OLD_SERIAL = 9,
    RTR_CAUSE_OTHER_DATA = 10,
    RTR_CAUSE_TOO_LONG = 11,
    RTR_CAUSE_NOT_APPLIED = 12, /* changes are refused, for `status` */
    RTR_CAUSE_EXPIRED = 13,
    RTR_CAUSE_LOWER = 14,       /* no failure: it reconnects at once, in a lower version */
    RTR_CAUSE_HIGHER = 15       /* no failure: it reconnects at once, in the highest version */
};

/* What the program has to do. Fields that an action doesn't have are 0. */
struct rtr_action {
    size_t start;     /* the offset in the input of the unit that the action is about */
    size_t taken;     /* the number of bytes of the input that were consumed, that unit included;
                         a unit that is refused isn't consumed, since the connection ends */
    size_t wanted;    /* after rtr_router_read, if there is no whole unit, the least number of
                         input bytes needed, as in an rtr_unit */
    uint32_t serial;  /* the serial number of a serial query */
    uint16_t session; /* the session of a serial query */
    uint16_t code;    /* the error code of the report */
    uint8_t kind;     /* what to do, an rtr_action_kind */
    uint8_t version;  /* the version of a query or a report */
    uint8_t cause;    /* why the connection ends, an rtr_cause */
    uint8_t status;   /* why a unit or a change is refused, an rtr_status; else 0 */
    uint8_t detail;   /* the detail of the status, as in an rtr_answer */
    bool changes;     /* for RTR_ASK, whether the query is a serial query; for RTR_APPLY, whether
                         the units change the data */
    bool drops;       /* whether there are no data any more */
    bool reports;     /* whether a report is owed */
};

/* Sets the default settings, with this version, or 2 if it is higher. */
void rtr_settings_usual(struct rtr_settings *settings, uint8_t highest);

/* Initializes a router without data, whatever the struct holds; its first rtr_router_tick
 * connects. */
void rtr_router_init(struct rtr_router *router, const struct rtr_settings *settings);

/* Restarts a router that was stopped, as in a group, without data: it continues with the same
 * cache, so its waits continue to grow. */
void rtr_router_again(struct rtr_router *router);

/* Reports whether the router has data at this time: not after they expire, even if no call has
 * returned RTR_DROP or RTR_END yet. */
bool rtr_router_has_data(const struct rtr_router *router, uint64_t now);

/* Time passed. */
void rtr_router_tick(struct rtr_router *router, uint64_t now, struct rtr_action *action);

/* The program requests current data: the router asks as soon as it may, or connects. */
void rtr_router_asked(struct rtr_router *router, uint64_t now, struct rtr_action *action);

/* The connection is established. */
void rtr_router_connected(struct rtr_router *router, uint64_t now, struct rtr_action *action);

/* The connection failed or was lost, and rtr_router_read has no input left. */
void rtr_router_lost(struct rtr_router *router, uint64_t now, struct rtr_action *action);

/* All changes of the answer were applied, before its expire time is over. */
void rtr_router_applied(struct rtr_router *router, uint64_t now, struct rtr_action *action);

/* No change was applied, since rtr_apply_in_order returned this status; RTR_OK means that there was
 * no memory for a unit or for the changes. The action's detail is 0: before rtr_router_report the
 * caller sets it to the one that came with the status. */
void rtr_router_not_applied(struct rtr_router *router, uint64_t now, uint8_t status,
                            struct rtr_action *action);

/* Returns when to call rtr_router_tick, if nothing happens before. The time may be in the past. */
uint64_t rtr_router_wakes(const struct rtr_router *router);

/* Tells the router of the units at the start of the input: of all payload units of a response that
 * are there (RTR_KEEP), otherwise of one unit. If the peer has closed, `ended`, an incomplete unit
 * is refused. RTR_WAIT with nothing taken means that there is no whole unit. */
static inline void rtr_router_read(struct rtr_router *router, uint64_t now,
                                   const uint8_t *input, size_t input_length, bool ended,
                                   struct rtr_action *action)
{
    rtr_router_read_nonnull(router, now, rtr_readable(input), input_length, ended, action);
}

/* Writes the query of RTR_ASK, and returns its length: 8 or 12; 0 if the output is shorter. */
static inline size_t rtr_router_query(const struct rtr_action *action,
                                      uint8_t *output, size_t output_length)
{
    return rtr_router_query_nonnull(action, rtr_writable(output), output_length);
}

/* Writes the report that RTR_END owes about the unit at the start of this input: that at `start`,
 * or the change at the offset that rtr_apply_in_order returned. Returns false, with `written` 0, if
 * no report is owed or the output is too short; 65535 bytes are always enough. */
static inline bool rtr_router_report(const struct rtr_action *action,
                                     const uint8_t *input, size_t input_length,
                                     uint8_t *output, size_t output_length, size_t *written)
{
    return rtr_router_report_nonnull(action, rtr_readable(input), input_length,
                                     rtr_writable(output), output_length, written);
}

/* Returns the text of a cause, never null; any number may be passed. */
static inline const char *rtr_cause_text(uint8_t cause)
{
    static const char *const texts[] = {
        "the cache closed the connection",
        "the cache is too slow",
        "unit is refused",
        "the cache reports an error",
        "unit is not allowed here",
        "version does not have such payloads",
        "unit of another version than the session",
        "answer of a higher version than the query",
        "unit of another session",
        "serial number before that of the query",
        "other data at the serial number of the query",
        "the answer is too long",
        "changes are refused",
        "the data have expired",
        "the cache may have a lower version",
        "the cache may have a higher version",
    };
    return cause < sizeof texts / sizeof *texts && texts[cause] ? texts[cause] : "unknown cause";
}

/* Writes the text of a failure by an error report that the peer sent, with a 0 at its end: `what`,
 * the text of RTR_CAUSE_REPORTED or RTR_REASON_REPORTED, and that of rtr_report_text. The input is
 * that of rtr_next, which returned the report. An output of 200 bytes suffices; a shorter one
 * truncates the text. */
static inline void rtr_reported_text(const char *what, const struct rtr_unit *report,
                                     const uint8_t *input, char *output, size_t output_length)
{
    size_t at = 0, length, room = output_length ? output_length - 1 : 0;
    const char *const parts[] = {what, ": "};
    for (size_t part = 0; part < sizeof parts / sizeof *parts; part++)
        for (const char *from = parts[part]; *from && at < room; from++)
            output[at++] = *from;
    rtr_report_text(report->code, input + report->text_start, report->text_length,
                    (uint8_t *)output + at, room - at, &length);
    if (output_length)
        output[at + (length < room - at ? length : room - at)] = 0;
}

/* A router's end of a session with its bytes and its data, without sockets, clock and memory (RFC
 * 8210; docs/SESSIONS.md has its states): a struct rtr_router with what carries its units. The
 * program owns the buffers, passes them to each call, and grows them on request. It calls
 * rtr_link_next in a loop, and does what that returns in a struct rtr_todo:
 *
 *   RTR_TODO_GO         nothing
 *   RTR_TODO_WAIT       send the bytes at rtr_link_output, and call rtr_link_sent; read to
 *                       rtr_link_room, and call rtr_link_received. Call rtr_link_next again when
 *                       bytes came, the connection was lost, or the time is `wakes`
 *   RTR_TODO_CONNECT    open a connection until `wakes`, then call rtr_link_opened or
 *                       rtr_link_lost, and rtr_link_next. The output is empty
 *   RTR_TODO_CLOSE      send the bytes at rtr_link_output, and close the connection, or stop
 *                       opening it, for this `cause`: rtr_todo_failure says which failure that is.
 *                       There is one for each RTR_TODO_CONNECT. If a unit or a change ends the
 *                       connection, it begins at `offset` of the input
 *   RTR_TODO_DATA       there are new data: rtr_link_data. Those before them are still in the
 *                       other buffer, until a whole answer is there again (`answers`)
 *   RTR_TODO_DROPPED    the data have expired: there are none any more
 *   RTR_TODO_NO_DATA    the cache has no data yet (RFC 8210 section 8.4), by its report at
 *                       `offset` of the input. It is asked again
 *   RTR_TODO_INPUT_ROOM, RTR_TODO_FIRST_ROOM, RTR_TODO_SECOND_ROOM, RTR_TODO_INDEX_ROOM,
 *   RTR_TODO_OUTPUT_ROOM
 *                       make this buffer at least `room` long, and keep what it holds; of the
 *                       output, sending helps too. Without memory for it, call
 *                       rtr_link_give_up. Nothing has happened: a data buffer and the index have
 *                       to fit any result of a whole answer before it is sorted
 *
 * After any of these but RTR_TODO_WAIT it calls rtr_link_next again. Unlike other calls, these take
 * any bytes as their struct, and any length, time and order: a wrong call has an rtr_link_status,
 * checked in the order of that enum, and changes nothing. Times are in milliseconds, below 2^63. */

/* How a call for a router's end ended. */
enum rtr_link_status {
    RTR_LINK_OK = 0,
    RTR_LINK_NOT_BEGUN = 1,    /* no call leaves the struct like this */
    RTR_LINK_SHORT_BUFFER = 2, /* a buffer is shorter than what it holds; for rtr_link_give_up,
                                  the output is shorter than RTR_LONGEST_UNIT */
    RTR_LINK_BAD_TIME = 3,     /* the time is before that of an earlier call, or not below 2^63 */
    RTR_LINK_OUT_OF_TURN = 4,  /* there is no connection, open or being opened, for this call */
    RTR_LINK_TOO_LONG = 5      /* more bytes than there is room for, or than are unsent */
};

enum rtr_todo_kind {
    RTR_TODO_NOTHING = 0, /* the call was refused */
    RTR_TODO_GO = 1,
    RTR_TODO_WAIT = 2,
    RTR_TODO_CONNECT = 3,
    RTR_TODO_CLOSE = 4,
    RTR_TODO_DATA = 5,
    RTR_TODO_DROPPED = 6,
    RTR_TODO_NO_DATA = 7,
    RTR_TODO_INPUT_ROOM = 8,
    RTR_TODO_FIRST_ROOM = 9,
    RTR_TODO_SECOND_ROOM = 10,
    RTR_TODO_INDEX_ROOM = 11,
    RTR_TODO_OUTPUT_ROOM = 12
};

/* Why there is no connection, or no data. docs/SESSIONS.md has what is reported to the cache. */
enum rtr_client_failure {
    RTR_CLIENT_NONE = 0,     /* nothing failed; the client may reconnect at once in another
                                version */
    RTR_CLIENT_LOST = 1,     /* connecting failed, or the connection broke or was closed */
    RTR_CLIENT_SLOW = 2,     /* the cache didn't answer or finish an answer in time */
    RTR_CLIENT_TOO_LONG = 3, /* an answer has too many units or bytes */
    RTR_CLIENT_REFUSED = 4,  /* a unit or the changes are refused for `status` */
    RTR_CLIENT_BREACH = 5,   /* a unit breaks the rules of a session */
    RTR_CLIENT_REPORTED = 6, /* the cache reports the error `code` */
    RTR_CLIENT_EXPIRED = 7,  /* the data have expired, and were dropped */
    RTR_CLIENT_MEMORY = 8    /* there is no memory for an answer; or of an rtr_client to connect:
                                then RTR_CLIENT_CONNECT hasn't come, and it retries at `wakes` */
};

/* A router's end: 232 bytes, aligned as a uint64_t. Its fields are its own. It may be copied. */
struct rtr_link {
    struct rtr_settings settings;
    uint64_t expires, came, asked, tried, due, rises, bytes, latest, received;
    size_t kept, end_size, filled, shown, unsent;
    struct rtr_known known, answer;
    uint32_t wait, rise_wait, units, note, mark;
    uint16_t session;
    uint8_t phase, version, floor, agreed, fell, silent, changes, resync, answered, noted;
    uint8_t has_data, holding, since, shows, second, opened, closed;
};

/* What the program does next. Fields that it doesn't have are 0. */
struct rtr_todo {
    uint64_t wakes;    /* when to call rtr_link_next, if nothing comes before. It may have passed */
    uint64_t position; /* the offset of the unit that it is about, in all bytes of the
                          connection. If an answer can't be applied, the offset of the refused
                          change in the payload units of the answer, or 0 if none is refused. At
                          any other end that is about no unit, the number of bytes that came
                          before those of the input */
    size_t room;       /* the length that a buffer needs: in bytes, of the index in entries */
    size_t offset;     /* the offset of that unit in the input */
    uint16_t code;     /* the error code of the report that the output ends with */
    uint8_t kind;      /* what to do, an rtr_todo_kind */
    uint8_t cause;     /* why the connection ends, an rtr_cause */
    uint8_t status;    /* why a unit or a change is refused, an rtr_status; else 0 */
    uint8_t detail;    /* the detail of the status, as in an rtr_answer */
    bool drops;        /* whether there are no data any more */
    bool reports;      /* whether the output ends with a report */
};

/* What the buffers hold. */
struct rtr_link_state {
    uint64_t wakes; /* when to call rtr_link_next, if nothing comes before. It may have passed */
    size_t filled;  /* the offset in the input at which the next bytes are read */
    size_t unsent;  /* the number of unsent bytes of the output, from its front */
    size_t shown;   /* the length of the data, in canonical form; 0 if there are none */
    size_t answer;  /* the length of the payload units of a whole answer, at the front of the
                       input, which the next rtr_link_next applies; or 0 */
    bool has_data;  /* whether there are data, which haven't expired at this time */
    bool second;    /* whether the data are in the second buffer */
    bool answers;   /* whether a whole answer is there */
    bool since;     /* whether its units are changes of the data, and not all payloads */
};

/* The buffers of a router's end, of any length at first. They don't overlap. */
struct rtr_link_buffers {
    uint8_t *input;            /* what was read */
    size_t input_length;
    uint8_t *first, *second;   /* one holds the data; the next answer is written to the other */
    size_t first_length, second_length;
    size_t *index;             /* to sort in: an entry for each payload unit of an answer */
    size_t index_length;
    uint8_t *output;           /* the bytes to send */
    size_t output_length;
};

/* Begins a router's end without data, whatever the struct holds. It connects at once. */
void rtr_link_init(struct rtr_link *link, const struct rtr_settings *settings);

/* Begins a router's end again, without data and with its settings: the waits for a failing cache
 * continue to grow. A program that stopped following a cache calls it before it follows it again,
 * with no connection open. */
uint8_t rtr_link_again(struct rtr_link *link);

/* The connection is open. RTR_LINK_OUT_OF_TURN unless RTR_TODO_CONNECT asked for it, and neither
 * this call, rtr_link_lost nor RTR_TODO_CLOSE followed. */
uint8_t rtr_link_opened(struct rtr_link *link);

/* No connection could be opened, the peer closed it, or it broke. Bytes that were read before are
 * still taken. RTR_LINK_OUT_OF_TURN if there is none and none is being opened, or it was lost. */
uint8_t rtr_link_lost(struct rtr_link *link);

/* Reports that `size` bytes were read to rtr_link_room. RTR_LINK_OUT_OF_TURN if there is no
 * connection, or it was lost; RTR_LINK_TOO_LONG if there is less room. */
static inline uint8_t rtr_link_received(struct rtr_link *link,
                                        const struct rtr_link_buffers *buffers, size_t size)
{
    return rtr_link_received_nonnull(link, rtr_readable(buffers->input), buffers->input_length,
                                     size);
}

/* Reports that the first `size` bytes at rtr_link_output were sent; the others move to the front of
 * the output. RTR_LINK_TOO_LONG if there are fewer. */
static inline uint8_t rtr_link_sent(struct rtr_link *link, const struct rtr_link_buffers *buffers,
                                    size_t size)
{
    return rtr_link_sent_nonnull(link, rtr_writable(buffers->output), buffers->output_length, size);
}

/* Sets `todo` to what the program does next. */
static inline uint8_t rtr_link_next(struct rtr_link *link, const struct rtr_link_buffers *buffers,
                                    uint64_t now, struct rtr_todo *todo)
{
    static size_t nowhere;
    return rtr_link_next_nonnull(link, now, rtr_writable(buffers->input), buffers->input_length,
                                 rtr_writable(buffers->first), buffers->first_length,
                                 rtr_writable(buffers->second), buffers->second_length,
                                 buffers->index ? buffers->index : &nowhere, buffers->index_length,
                                 rtr_writable(buffers->output), buffers->output_length, todo);
}

/* Requests the present data: the client asks its cache as soon as the pause allows it. The program
 * does what this returns, as for rtr_link_next; after RTR_TODO_OUTPUT_ROOM it calls again. */
static inline uint8_t rtr_link_ask_now(struct rtr_link *link,
                                       const struct rtr_link_buffers *buffers, uint64_t now,
                                       struct rtr_todo *todo)
{
    return rtr_link_ask_now_nonnull(link, now, rtr_writable(buffers->input), buffers->input_length,
                                    rtr_writable(buffers->output), buffers->output_length, todo);
}

/* Reports that a buffer can't grow: the connection ends, if there is one, and the data stay. The
 * program does what this returns, as for rtr_link_next. If the output has no room for a report, its
 * unsent bytes are dropped. */
static inline uint8_t rtr_link_give_up(struct rtr_link *link,
                                       const struct rtr_link_buffers *buffers, uint64_t now,
                                       struct rtr_todo *todo)
{
    return rtr_link_give_up_nonnull(link, now, rtr_writable(buffers->input), buffers->input_length,
                                    rtr_writable(buffers->output), buffers->output_length, todo);
}

/* Returns which failure this is, an rtr_client_failure: of RTR_TODO_CLOSE, RTR_TODO_DROPPED and
 * RTR_TODO_NO_DATA; otherwise RTR_CLIENT_NONE. `gave_up` says whether rtr_link_give_up returned it.
 * Any numbers may be in the struct. */
uint8_t rtr_todo_failure(const struct rtr_todo *todo, bool gave_up);

/* Sets `state` to what the buffers hold at this time; to 0 in all fields if the call is refused. */
static inline uint8_t rtr_link_state(const struct rtr_link *link,
                                     const struct rtr_link_buffers *buffers, uint64_t now,
                                     struct rtr_link_state *state)
{
    return rtr_link_state_of(link, now, buffers->input_length, buffers->first_length,
                             buffers->second_length, buffers->output_length, state);
}

/* Returns where to read to, and sets `length` to how many bytes at most: not 0 after
 * RTR_TODO_WAIT. */
static inline uint8_t *rtr_link_room(const struct rtr_link_buffers *buffers,
                                     const struct rtr_link_state *state, size_t *length)
{
    *length = buffers->input_length - state->filled;
    return buffers->input ? buffers->input + state->filled : buffers->input;
}

/* Returns the bytes to send, and sets `length` to their number, which may be 0. */
static inline const uint8_t *rtr_link_output(const struct rtr_link_buffers *buffers,
                                             const struct rtr_link_state *state, size_t *length)
{
    *length = state->unsent;
    return buffers->output;
}

/* Returns the data, in canonical form, and sets `length` to their length; returns a null pointer if
 * there are none. */
static inline const uint8_t *rtr_link_data(const struct rtr_link_buffers *buffers,
                                           const struct rtr_link_state *state, size_t *length)
{
    *length = state->shown;
    return !state->has_data ? NULL : state->second ? buffers->second : buffers->first;
}

/* Caches in order of preference (RFC 8210 section 10): which cache's data are shown, and which are
 * asked, without sockets, a clock or memory. A group has up to 16 members, each a router with its
 * cache; member 0 is the most preferred. The group holds no data. A program starts member 0, passes
 * each rtr_todo of a member's struct rtr_link to rtr_group_tell, calls rtr_group_tick when the time
 * is rtr_group_wakes, and carries out each answer, in this order:
 *
 *   shown   RTR_GROUP_DATA: show the present data of `member` in place of those before (rtr_delta
 *           computes the difference). RTR_GROUP_NOTHING: no data are shown any more
 *   stops   stop the members from `stop` on that run, and drop their data. Keep their routers
 *   starts  start the member `start` without data: the first time with a new router, later with
 *           rtr_link_again or rtr_router_again, so that the waits for its cache aren't reset
 *
 * A program with a struct rtr_router, or with none, calls one of three functions for each event. An
 * action of a router is at most one: RTR_SHOW is rtr_group_shows; RTR_DROP, and RTR_END with
 * `drops`, is rtr_group_drops; RTR_NO_DATA, and RTR_END without `drops`, is rtr_group_fails, unless
 * its cause is RTR_CAUSE_LOWER or RTR_CAUSE_HIGHER; other actions are no event. A program may
 * report the failure that caused a loss of data after it, by rtr_group_fails: then that changes
 * nothing.
 *
 * A member is current from a whole answer until its next failure. The data of the most preferred
 * current member are shown; while none is current, those of the member with the latest whole
 * answer, until they expire. A member runs while each one before it has, since it was started and
 * since its last whole answer, failed or been silent for the patience. Events of a member that
 * doesn't run are ignored. Times are in milliseconds, by a monotonic clock, and below 2^63. A
 * struct is plain data: it may be copied and read. */

/* How the shown data change. */
enum rtr_group_shown {
    RTR_GROUP_SAME = 0,
    RTR_GROUP_DATA = 1,
    RTR_GROUP_NOTHING = 2
};

/* How rtr_group_tell ended. */
enum rtr_group_status {
    RTR_GROUP_TOLD = 0,
    RTR_GROUP_NO_TODO = 1,  /* only a refused call for a router's end returns this todo */
    RTR_GROUP_NO_MEMBER = 2 /* the group has no such member */
};

/* What a program may set. */
struct rtr_group_settings {
    uint32_t patience;  /* how long, in milliseconds, a member may have no whole answer before
                           the next one is started too, while none is current; default 5 seconds */
    bool empty_is_data; /* whether a whole answer without payloads counts as data, and not as a
                           failure that drops them; default false */
};

struct rtr_group {
    struct rtr_group_settings settings; /* the settings of the group */
    size_t count; /* the number of members */
    size_t runs;  /* the number of members that run, from the first on */
    uint64_t due; /* when the next member is started, while none is current */
    bool has[16]; /* whether each member that runs has data */
    bool current; /* whether the last member that runs is current */
};

/* What the program has to do. Fields that an answer doesn't have are 0. */
struct rtr_group_answer {
    size_t member; /* the member whose data to show, for RTR_GROUP_DATA */
    size_t stop;   /* the first member to stop, if `stops` */
    size_t start;  /* the member to start, if `starts` */
    uint8_t shown; /* how the shown data change, an rtr_group_shown */
    bool stops;    /* whether members have to be stopped */
    bool starts;   /* whether a member has to be started */
};

/* Sets the default settings. */
void rtr_group_usual(struct rtr_group_settings *settings);

/* Initializes a group of `count` members without data, whatever the struct holds.
 *
 * RTR_OK; or RTR_TOO_MANY_MEMBERS, and the group has no members. */
uint8_t rtr_group_init(struct rtr_group *group, const struct rtr_group_settings *settings,
                       size_t count, uint64_t now);

/* Reports whether data are shown, and sets `member` to the one that they are from, or to 0. */
bool rtr_group_best(const struct rtr_group *group, size_t *member);

/* Reports whether a whole answer with this number of payloads counts as data. Otherwise it is a
 * failure, RTR_FAILURE_EMPTY. */
bool rtr_group_counts(const struct rtr_group *group, size_t payloads);

/* Returns when to call rtr_group_tick, if nothing happens before; UINT64_MAX for never. */
uint64_t rtr_group_wakes(const struct rtr_group *group);

/* Time passed. */
void rtr_group_tick(struct rtr_group *group, uint64_t now, struct rtr_group_answer *answer);

/* A member has to do this next, as rtr_link_next, rtr_link_ask_now or rtr_link_give_up told; its
 * data have this number of payloads, which counts after RTR_TODO_DATA alone. Pass each todo once:
 * it is at most one event. Data come with RTR_TODO_DATA; they are lost by RTR_TODO_DROPPED, and by
 * RTR_TODO_CLOSE with `drops`; RTR_TODO_NO_DATA is a failure, and so is each other RTR_TODO_CLOSE,
 * unless its cause is RTR_CAUSE_LOWER or RTR_CAUSE_HIGHER; no other todo is an event.
 *
 * RTR_GROUP_TOLD; or another rtr_group_status, checked in the order of that enum, and nothing
 * changes. */
uint8_t rtr_group_tell(struct rtr_group *group, uint64_t now, size_t member,
                       const struct rtr_todo *todo, size_t payloads,
                       struct rtr_group_answer *answer);

/* A member has the data of a whole answer, with this number of payloads (RTR_SHOW). They may be
 * unchanged. */
void rtr_group_shows(struct rtr_group *group, uint64_t now, size_t member, size_t payloads,
                     struct rtr_group_answer *answer);

/* A member has no data any more: they expired, or were dropped (RTR_DROP; RTR_END with `drops`).
 * This is a failure, too. */
void rtr_group_drops(struct rtr_group *group, uint64_t now, size_t member,
                     struct rtr_group_answer *answer);

/* Reports that a member failed. It keeps its data if it has any (RTR_NO_DATA; RTR_END without
 * `drops`, except for RTR_CAUSE_LOWER and RTR_CAUSE_HIGHER). */
void rtr_group_fails(struct rtr_group *group, uint64_t now, size_t member,
                     struct rtr_group_answer *answer);

/* The cache's end of the protocol: a state machine without sockets, a clock or memory (RFC 8210;
 * docs/SESSIONS.md has its rules). A program has a struct rtr_cache for each connection, tells it
 * what happens and which data are its newest, and carries out what the call returns:
 *
 *   RTR_SERVE_WAIT     do nothing until bytes arrive, there are new data, or the time is
 *                      rtr_cache_wakes
 *   RTR_SERVE_ALL      send the cache response that rtr_cache_unit writes, and all data, with their
 *                      end of data
 *   RTR_SERVE_CHANGES  send the cache response that rtr_cache_unit writes, and the changes from the
 *                      data of the serial number `serial` to the newest data, with the end of data
 *                      of the newest
 *   RTR_SERVE_RESET    send the cache reset that rtr_cache_unit writes
 *   RTR_SERVE_NO_DATA  send the report that rtr_cache_report writes. The connection stays open
 *   RTR_SERVE_NOTIFY   send the notify that rtr_cache_unit writes
 *   RTR_SERVE_END      send what rtr_cache_report writes if `reports`, and close the connection;
 *                      `reason` says why
 *
 * Everything is sent in the version `version`, each answer to its end before the next. Data and
 * changes in canonical form are sent as they are: rtr_normalise_for_slice writes data for a
 * version, and rtr_delta changes. A session and serial number always name the same data.
 *
 * After each answer but RTR_SERVE_WAIT the program calls rtr_cache_read with the input after
 * `taken`, until it returns RTR_SERVE_WAIT with nothing taken; and rtr_cache_tick, as it does when
 * there are new data. After RTR_SERVE_END it reports nothing more of the connection. Times are in
 * milliseconds, by a monotonic clock, and below 2^63. A struct is plain data: it may be copied and
 * read. */

/* The session and serial number of a cache's newest data. */
struct rtr_present {
    uint32_t serial;  /* the serial number of the newest data */
    uint16_t session; /* the session of the newest data */
    bool has;         /* whether there are data; if not, the two other fields are ignored */
};

/* What a program may set. Times are in milliseconds. */
struct rtr_cache_settings {
    uint32_t first_limit; /* the time limit to the first query; default 30 seconds */
    uint32_t idle_limit;  /* the time limit from a query to the next; default 25 hours */
    uint32_t pause;       /* the least time between two notifies; default 1 minute */
    bool refuses;         /* whether a serial query whose changes aren't known is answered by a
                             report of code 0 and the end, instead of a cache reset; default
                             false */
};

struct rtr_cache {
    struct rtr_cache_settings settings;
    uint64_t notify_from, due;
    uint32_t serial; /* the serial number of the newest data that the router was sent or notified
                        of, if `told`; or of the newest data at the cache reset that made it ask
                        for all data, if `reset` */
    uint16_t session;
    uint8_t version; /* the version of the connection, if a query came, `asked` */
    bool live, asked, told, reset;
};

enum rtr_serving_kind {
    RTR_SERVE_WAIT = 0,
    RTR_SERVE_ALL = 1,
    RTR_SERVE_CHANGES = 2,
    RTR_SERVE_RESET = 3,
    RTR_SERVE_NO_DATA = 4,
    RTR_SERVE_NOTIFY = 5,
    RTR_SERVE_END = 6
};

/* Why a cache ends a connection; rtr_reason_text returns the text. */
enum rtr_reason {
    RTR_REASON_LOST = 0,
    RTR_REASON_SLOW = 1,
    RTR_REASON_FULL = 2,
    RTR_REASON_FAULTY = 3,   /* a unit is refused, for `status` */
    RTR_REASON_REPORTED = 4, /* the router reports an error, in `taken` bytes of input */
    RTR_REASON_NO_QUERY = 5,
    RTR_REASON_OTHER_VERSION = 6,
    RTR_REASON_NO_VERSION = 7,
    RTR_REASON_NEW_SESSION = 8,
    RTR_REASON_UNKNOWN = 9
};

/* What the program has to send. Fields that an answer doesn't have are 0. */
struct rtr_serving {
    size_t taken;     /* the number of bytes of the input that were consumed: its first unit; a
                         unit that is refused isn't consumed, since the connection ends */
    size_t wanted;    /* after rtr_cache_read, if there is no whole unit, the least number of
                         input bytes needed, as in an rtr_unit */
    uint32_t serial;  /* the serial number of all data or a notify; for RTR_SERVE_CHANGES, that
                         of the data from which they lead */
    uint16_t session; /* the session of all data, changes or a notify */
    uint16_t code;    /* the error code of the report */
    uint8_t kind;     /* what to send, an rtr_serving_kind */
    uint8_t version;  /* the protocol version of what is sent */
    uint8_t reason;   /* why the connection ends, an rtr_reason */
    uint8_t status;   /* why a unit is refused, an rtr_status; else 0 */
    uint8_t detail;   /* the detail of the status, as in an rtr_answer */
    bool reports;     /* whether a report is owed */
};

/* Sets the default settings. */
void rtr_cache_settings_usual(struct rtr_cache_settings *settings);

/* Initializes a connection that was made at this time, whatever the struct holds. */
void rtr_cache_init(struct rtr_cache *cache, uint64_t now,
                    const struct rtr_cache_settings *settings);

/* Reports that time passed, or that there are new data. */
void rtr_cache_tick(struct rtr_cache *cache, uint64_t now, const struct rtr_present *present,
                    struct rtr_serving *serving);

/* The connection is above the cache's limit: it ends with a report. */
void rtr_cache_full(struct rtr_cache *cache, uint64_t now, const struct rtr_present *present,
                    struct rtr_serving *serving);

/* The connection was lost and rtr_cache_read has no input left, or sending took too long. */
void rtr_cache_lost(struct rtr_cache *cache, uint64_t now, const struct rtr_present *present,
                    struct rtr_serving *serving);

/* Returns when to call rtr_cache_tick, if nothing happens before and these stay the newest data.
 * The time may be in the past; UINT64_MAX after the end. */
uint64_t rtr_cache_wakes(const struct rtr_cache *cache, const struct rtr_present *present);

/* Tells the cache of the unit at the start of the input. `kept` are the serial numbers of the
 * present session from which the program can send changes, in any order; the present one, from
 * which there are none, needn't be among them. If the router has closed, `ended`, an incomplete
 * unit is refused. RTR_SERVE_WAIT with nothing taken means that there is no whole unit. */
static inline void rtr_cache_read(struct rtr_cache *cache, uint64_t now,
                                  const struct rtr_present *present,
                                  const uint32_t *kept, size_t kept_length,
                                  const uint8_t *input, size_t input_length, bool ended,
                                  struct rtr_serving *serving)
{
    static const uint32_t nowhere = 0;
    rtr_cache_read_nonnull(cache, now, present, kept ? kept : &nowhere, kept_length,
                           rtr_readable(input), input_length, ended, serving);
}

/* Writes the first unit of an answer, and returns its length: 8 for a cache response (RTR_SERVE_ALL
 * and RTR_SERVE_CHANGES) or a cache reset, and 12 for a notify; 0 if the answer has none, or the
 * output is shorter. */
static inline size_t rtr_cache_unit(const struct rtr_serving *serving,
                                    uint8_t *output, size_t output_length)
{
    return rtr_cache_unit_nonnull(serving, rtr_writable(output), output_length);
}

/* Writes the report that an answer owes, about the unit at the start of the input that
 * rtr_cache_read got; that of rtr_cache_full encloses no unit. Returns false, with `written` 0, if
 * no report is owed or the output is too short; 65535 bytes are always enough. */
static inline bool rtr_cache_report(const struct rtr_serving *serving,
                                    const uint8_t *input, size_t input_length,
                                    uint8_t *output, size_t output_length, size_t *written)
{
    return rtr_cache_report_nonnull(serving, rtr_readable(input), input_length,
                                    rtr_writable(output), output_length, written);
}

/* The limits of a server, and its door, which decides whether a new connection is served. A program
 * calls rtr_door_next before it accepts a connection, and leaves it in the queue of the system if
 * that returns RTR_ENTRY_WAIT; it calls rtr_door_enter when it has accepted one, and
 * rtr_door_leave when it has closed one. A struct is plain data: it may be copied and read. */

/* The limits of a server. Times are in milliseconds. */
struct rtr_server_settings {
    struct rtr_cache_settings cache;
    uint64_t keep;             /* how long, at least, changes from data are kept after newer data
                                  came; default 2 hours */
    size_t keep_bytes;         /* the most bytes of changes that are kept; default 64 MiB */
    uint32_t unit_limit;       /* from a unit's first byte to its last; default 10 seconds */
    uint32_t write_limit;      /* without a byte of an answer sent; default 30 seconds */
    uint32_t response_limit;   /* to send a whole answer; default 10 minutes */
    uint32_t report_limit;     /* to send the last report, and for the router to read it; default
                                  10 seconds */
    uint32_t most_connections; /* the most connections that are served at once; default 1024 */
    uint32_t most_refused;     /* the most connections above that limit that get a report of code
                                  1 at once; default 64 */
    uint32_t most_behind;      /* how many newer data may come while a connection is sent an
                                  answer; default 2 */
};

/* The connections of a server, each from its entry until it is closed. */
struct rtr_door {
    uint32_t most_connections, most_refused;
    uint32_t served;  /* the connections that are served */
    uint32_t refused; /* the connections that are being refused */
};

/* What a new connection gets. */
enum rtr_entry {
    RTR_ENTRY_SERVE = 0,
    RTR_ENTRY_REFUSE = 1, /* rtr_cache_full, its report, and the close */
    RTR_ENTRY_WAIT = 2    /* it isn't accepted now; if it is already, it is closed without a
                             report */
};

/* Sets the defaults. */
void rtr_server_settings_usual(struct rtr_server_settings *settings);

/* Reports whether `length` bytes of changes, as encoded for routers of a version, are kept for
 * further routers beside `kept_bytes` that are kept: if both together aren't more than
 * `keep_bytes`. Changes that aren't kept are computed again. */
bool rtr_server_keeps(const struct rtr_server_settings *settings, size_t kept_bytes, size_t length);

/* Initializes the door of a server without connections, whatever the struct holds. */
void rtr_door_init(struct rtr_door *door, const struct rtr_server_settings *settings);

/* Returns the rtr_entry that a new connection would get now. `spare`: whether the system has a
 * descriptor beside that of the connection; without one it isn't served. */
uint8_t rtr_door_next(const struct rtr_door *door, bool spare);

/* Counts a connection that was accepted, and returns its rtr_entry. */
uint8_t rtr_door_enter(struct rtr_door *door, bool spare);

/* A connection with this rtr_entry was closed. Returns false, and changes nothing, if the door
 * has counted none. */
bool rtr_door_leave(struct rtr_door *door, uint8_t entry);

/* A connection of a server: what its program does next, and when a limit of time, newer data or a
 * new session end it. The program has the bytes, and a struct rtr_cache for the answers; it calls
 * rtr_connection_next after each of the other calls, when there are new data, and at the time
 * rtr_connection_wakes, and does what that returns. A struct is plain data: it may be copied and
 * read. */
struct rtr_connection {
    struct rtr_server_settings settings;
    uint64_t begun;  /* when the first unheard byte came */
    uint64_t taken;  /* when a byte of the answer was sent last */
    uint64_t until;  /* when all of the answer must be sent; at an end, when to close */
    uint64_t number; /* the number of the newest data when the answer began */
    size_t filled;   /* the bytes that came and weren't heard */
    size_t unsent;   /* the bytes of the answer, or of the last report, that weren't sent */
    uint8_t state;   /* 0 if it is served, 1 if it ended with a report, 2 if it ended without one
                        or broke */
    bool fresh;      /* whether there may be a whole unit among the unheard bytes */
    bool closed;     /* whether the router has closed */
};

/* What the program does next. After an answer, or an end, of the struct rtr_cache it calls
 * rtr_connection_answers or rtr_connection_ends with the number of bytes that this sends. */
enum rtr_step {
    RTR_STEP_WAIT = 0,
    RTR_STEP_HEAR = 1,   /* call rtr_cache_read, then rtr_connection_heard */
    RTR_STEP_TICK = 2,   /* call rtr_cache_tick */
    RTR_STEP_LOSE = 3,   /* call rtr_cache_lost */
    RTR_STEP_SEND = 4,   /* send, then call rtr_connection_sent */
    RTR_STEP_FINISH = 5, /* shut down for writing, and read until the router closes */
    RTR_STEP_CLOSE = 6   /* close, for an rtr_cut */
};

/* The limit that ended a connection. */
enum rtr_cut {
    RTR_CUT_NONE = 0,        /* the rtr_cache ended it, or it broke */
    RTR_CUT_SLOW = 1,        /* a unit or an answer took too long */
    RTR_CUT_NEW_SESSION = 2, /* there are data of another session */
    RTR_CUT_BEHIND = 3       /* more than `most_behind` newer data came */
};

/* Initializes a connection that was accepted at this time, whatever the struct holds. */
void rtr_connection_init(struct rtr_connection *connection, uint64_t now,
                         const struct rtr_server_settings *settings);

/* Reports that `size` bytes were read. */
void rtr_connection_received(struct rtr_connection *connection, uint64_t now, size_t size);

/* Reports that the router closed the connection. */
void rtr_connection_closed(struct rtr_connection *connection);

/* The connection broke, as after a reset or a failed write: nothing can be sent on it any more, so
 * that rtr_connection_next returns RTR_STEP_CLOSE. What came before isn't heard any more. */
void rtr_connection_broke(struct rtr_connection *connection);

/* Reports whether the program reads from the connection now: while no answer is being sent, until
 * the router closes or the connection ends. Bytes that the router sends meanwhile wait in the
 * socket. After RTR_STEP_FINISH a program reads, too, but ignores what comes. */
bool rtr_connection_reads(const struct rtr_connection *connection);

/* Reports that rtr_cache_read took `size` bytes: 0 if there is no whole unit. */
void rtr_connection_heard(struct rtr_connection *connection, uint64_t now, size_t size);

/* Begins an answer of `size` bytes, while the newest data have this number; data are numbered as
 * they come. Returns false, and changes nothing, while another answer is unsent, or after the
 * end. */
bool rtr_connection_answers(struct rtr_connection *connection, uint64_t now, size_t size,
                            uint64_t number);

/* Reports that the rtr_cache ends the connection, with an error report of `size` bytes; 0 for none.
 * Returns as rtr_connection_answers. */
bool rtr_connection_ends(struct rtr_connection *connection, uint64_t now, size_t size);

/* Reports that `size` bytes were sent. Returns false, and changes nothing, if fewer are unsent. */
bool rtr_connection_sent(struct rtr_connection *connection, uint64_t now, size_t size);

/* Returns the rtr_step to do now, and sets `cut` to an rtr_cut. `number` is that of the newest
 * data, `present`. */
uint8_t rtr_connection_next(const struct rtr_connection *connection, uint64_t now,
                            const struct rtr_cache *cache, const struct rtr_present *present,
                            uint64_t number, uint8_t *cut);

/* Returns when to call rtr_connection_next, if nothing happens before. The time may be in the
 * past. */
uint64_t rtr_connection_wakes(const struct rtr_connection *connection,
                              const struct rtr_cache *cache, const struct rtr_present *present);

/* The data of a cache, with the changes since earlier data of its session, as bytes: without files,
 * a clock or memory (RFC 8210 sections 5.1, 5.3 and 8.2). A history is the present data and the
 * steps back to earlier data. A store is what a cache saves: the sessions that it left, and a
 * history. A struct rtr_stores says which of two buffers of the program has the store that is
 * served, and whether the other one has a store that has to be saved first. The program calls
 *
 *   at a start  rtr_stores_new, if the cache never served data. If it did, its file is read,
 *               checked by rtr_store_open, and the store behind its head copied to the front of the
 *               first buffer, for rtr_stores_start; rtr_store_open_old writes the store of a file
 *               of the form before to it. A cache that doesn't save calls rtr_stores_unsaved, with
 *               a session that it never used before
 *   for data    rtr_stores_take, with new data in canonical form. If it returns RTR_STORES_OK and
 *               the cache saves, the program writes the head of rtr_store_seal, and behind it the
 *               store at rtr_stores_to_save, to a file that replaces the one before, and calls
 *               rtr_stores_saved once the file is on the disk. The new data are served from then
 *               on. If the file can't be written, it calls rtr_stores_give_up
 *   for a       rtr_history_data, rtr_history_knows, rtr_history_serials and rtr_history_since,
 *   query       with the history at rtr_stores_served. It stays there until new data are served
 *
 * Then a cache never serves two data under one session and serial number, over any number of starts
 * and power cuts. These calls take any bytes as their struct: a wrong call has an
 * rtr_stores_status, and changes nothing. Times are in milliseconds since 1970. */

/* How a call on stores or on a history ended. RTR_STORES_NOT_MADE is checked first, and then
 * RTR_STORES_SHORT_BUFFER. */
enum rtr_stores_status {
    RTR_STORES_OK = 0,
    RTR_STORES_NOT_MADE = 1,        /* no call leaves the struct like this */
    RTR_STORES_SHORT_BUFFER = 2,    /* a buffer is shorter than the store in it */
    RTR_STORES_WAITS = 3,           /* a store waits to be saved or given up */
    RTR_STORES_FLAW = 4,            /* the data aren't in canonical form */
    RTR_STORES_OTHER_SESSION = 5,   /* the cache doesn't save, and started with another session */
    RTR_STORES_SESSION_LEFT = 6,    /* the cache used the session of the data before another one */
    RTR_STORES_OTHER_VERSION = 7,   /* the data before are of another protocol version */
    RTR_STORES_SAME_DATA = 8,       /* the data equal the served ones */
    RTR_STORES_OTHER_TIMES = 9,     /* only the times differ from those of the served data */
    RTR_STORES_OLD_SERIAL = 10,     /* the serial number isn't later than that of the served data */
    RTR_STORES_MALFORMED = 11,      /* the bytes aren't a store, or aren't a history */
    RTR_STORES_NO_ROOM = 12,        /* a buffer is too short for this call */
    RTR_STORES_UNKNOWN_SERIAL = 13, /* the history has no data of this serial number */
    RTR_STORES_UNIT_VERSION = 14    /* the protocol version is above RTR_HIGHEST_VERSION */
};

/* The buffer that is too short. */
enum rtr_room {
    RTR_ROOM_INDEX = 1,
    RTR_ROOM_BUFFER = 2,
    RTR_ROOM_SPARE = 3,
    RTR_ROOM_OUTPUT = 4,
    RTR_ROOM_FIRST = 5,
    RTR_ROOM_SECOND = 6
};

/* The stores of a cache. Its fields are its own. It may be copied. */
struct rtr_stores {
    size_t served, taken;
    uint32_t mark;
    uint16_t session;
    uint8_t serves, waits, second, unsaved;
};

/* Which steps back a history keeps. */
struct rtr_history_limits {
    uint64_t time; /* the time for which a step is kept, in milliseconds */
    size_t bytes;  /* the greatest size of all steps in bytes, 16 bytes for each step included */
};

/* How a call ended. Fields that an answer doesn't have are 0. */
struct rtr_stores_answer {
    size_t length;  /* the length of the store or the changes that were written, or the number of
                       serial numbers */
    size_t offset;  /* after RTR_STORES_FLAW, the offset of the unit at fault in the data */
    size_t wanted;  /* after RTR_STORES_NO_ROOM, the length that suffices for this call; of the
                       index and of serial numbers in entries */
    uint8_t status; /* the result of the call, an rtr_stores_status */
    uint8_t room;   /* after RTR_STORES_NO_ROOM, the buffer that is too short, an rtr_room */
    uint8_t flaw;   /* after RTR_STORES_FLAW, why the unit is refused, an rtr_status */
    uint8_t detail; /* after RTR_STORES_FLAW, the detail of that, as in an rtr_data_answer; after
                       RTR_STORES_OTHER_VERSION, the version of the data */
};

/* What the two buffers have. */
struct rtr_stores_state {
    size_t offset; /* the offset of the history that is served, in the buffer of its store */
    size_t length; /* the length of that history */
    size_t taken;  /* the length of the store to save, at the front of the other buffer */
    bool serves;   /* whether a history is served */
    bool waits;    /* whether a store has to be saved */
    bool second;   /* whether the second buffer has the store that is served, and the first the
                      other one */
};

/* What a file begins with; the store follows. */
struct rtr_store_head {
    uint8_t bytes[24]; /* the head, as it begins the file */
};

/* The two buffers. A program that makes one of them longer keeps what it holds. */
struct rtr_stores_buffers {
    uint8_t *first, *second;
    size_t first_length, second_length;
};

/* Memory that calls work in. What it holds doesn't matter, and is undefined afterwards. */
struct rtr_work {
    size_t *index;          /* to sort in */
    size_t index_length;
    uint8_t *buffer, *spare;
    size_t buffer_length, spare_length;
};

/* Begins the stores of a new cache, which serves no data, whatever the struct holds. */
void rtr_stores_new(struct rtr_stores *stores);

/* Begins the stores of a cache that doesn't save, at a start: rtr_stores_take serves data at once,
 * and takes those of this session only. */
void rtr_stores_unsaved(struct rtr_stores *stores, uint16_t session);

/* Begins the stores of a cache that saves, at a start: the first buffer has the store of its file,
 * of this length, at its front. It is served if it is a whole store. The spare buffer isn't used.
 * An index of one entry for each 12 bytes of the store, and a buffer as long as it, always suffice.
 *
 * RTR_STORES_OK, _SHORT_BUFFER, _MALFORMED, or _NO_ROOM for the index or the buffer; the struct
 * stays as it was unless it is RTR_STORES_OK. */
static inline uint8_t rtr_stores_start(struct rtr_stores *stores, size_t size,
                                       const struct rtr_stores_buffers *buffers,
                                       const struct rtr_work *work,
                                       struct rtr_stores_answer *answer)
{
    static size_t nowhere;
    return rtr_stores_start_nonnull(stores, size,
                                    rtr_readable(buffers->first), buffers->first_length,
                                    work->index ? work->index : &nowhere, work->index_length,
                                    rtr_writable(work->buffer), work->buffer_length, answer);
}

/* Takes new data in canonical form, at this time: writes their store to the buffer without the one
 * that is served. A cache that doesn't save serves it at once; else it waits for rtr_stores_saved,
 * and what is served stays. Data of the session that is served need a later serial number (RFC
 * 1982); data of another session begin a history, and their session may be none that the cache
 * left. The index isn't used. A buffer as long as the store that is served and the data together,
 * a spare one twice as long and 32 bytes more, and for the store 18 bytes more than the store, the
 * data and the spare buffer together, always suffice.
 *
 * Any rtr_stores_status but the last two. RTR_STORES_NO_ROOM is for the buffer, the spare buffer,
 * or the first or the second buffer. Unless it is RTR_STORES_OK, what is served and what waits
 * stays. */
static inline uint8_t rtr_stores_take(struct rtr_stores *stores,
                                      const uint8_t *data, size_t data_length, uint64_t now,
                                      const struct rtr_history_limits *limits,
                                      const struct rtr_stores_buffers *buffers,
                                      const struct rtr_work *work, struct rtr_stores_answer *answer)
{
    return rtr_stores_take_nonnull(stores, rtr_readable(data), data_length, now, limits,
                                   rtr_writable(work->buffer), work->buffer_length,
                                   rtr_writable(work->spare), work->spare_length,
                                   rtr_writable(buffers->first), buffers->first_length,
                                   rtr_writable(buffers->second), buffers->second_length, answer);
}

/* Returns the version to which new data of this session and version are converted before
 * rtr_stores_take, where the present data have `present_version`: that of the present data, if
 * these have the same session and no lower version than `version`, since the data of a session
 * follow each other in one version; otherwise RTR_HIGHEST_VERSION, which has a form for each
 * payload. Stores that hold the same session in a lower version refuse it
 * (RTR_STORES_OTHER_VERSION), until the data come in a new session. rtr_normalise_for_slice
 * converts data. */
uint8_t rtr_stores_version(const struct rtr_present *present, uint8_t present_version,
                           uint16_t session, uint8_t version);

/* The file has the store that was taken, which is served from now on. If none waits, nothing
 * changes. RTR_STORES_OK or RTR_STORES_NOT_MADE. */
uint8_t rtr_stores_saved(struct rtr_stores *stores);

/* Drops the store that was taken, as when it couldn't be saved, whether or not the file has it:
 * what is served stays. RTR_STORES_OK or RTR_STORES_NOT_MADE. */
uint8_t rtr_stores_give_up(struct rtr_stores *stores);

/* Returns the pause in milliseconds before a failed save is retried, given the pause before the
 * last try, or 0 after the first: one second at first, then twice the last pause, at most a
 * minute. */
uint32_t rtr_retry_after(uint32_t previous);

/* Sets `state` to what the two buffers hold. RTR_STORES_OK, _NOT_MADE or _SHORT_BUFFER; if the
 * call is refused, all fields are 0. */
static inline uint8_t rtr_stores_state(const struct rtr_stores *stores,
                                       const struct rtr_stores_buffers *buffers,
                                       struct rtr_stores_state *state)
{
    return rtr_stores_state_nonnull(stores, rtr_readable(buffers->first), buffers->first_length,
                                    rtr_readable(buffers->second), buffers->second_length, state);
}

/* Returns the history that is served, of `length` bytes; a null pointer if none is. */
static inline const uint8_t *rtr_stores_served(const struct rtr_stores_buffers *buffers,
                                               const struct rtr_stores_state *state,
                                               size_t *length)
{
    *length = state->length;
    return !state->serves ? NULL
                          : (state->second ? buffers->second : buffers->first) + state->offset;
}

/* Returns the store to save, of `length` bytes; a null pointer if none waits. */
static inline const uint8_t *rtr_stores_to_save(const struct rtr_stores_buffers *buffers,
                                                const struct rtr_stores_state *state,
                                                size_t *length)
{
    *length = state->taken;
    return !state->waits ? NULL : state->second ? buffers->first : buffers->second;
}

/* Writes the changes that lead a router of this version from the data of a serial number to the
 * present data of a history, in canonical form and with the end of the present data: what is sent
 * behind a cache response (RFC 8210 section 8.2). An index of one entry for each 12 bytes of the
 * history, a buffer twice as long as the history, a spare one as long as it, and an output 12 bytes
 * longer than the buffer always suffice.
 *
 * RTR_STORES_OK; or, with nothing written, RTR_STORES_UNIT_VERSION, which comes first, or
 * RTR_STORES_UNKNOWN_SERIAL; RTR_STORES_NO_ROOM for the index, the buffer, the spare buffer or the
 * output; RTR_STORES_MALFORMED. */
static inline uint8_t rtr_history_since(const uint8_t *history, size_t history_length,
                                        uint32_t serial, uint8_t version,
                                        const struct rtr_work *work,
                                        uint8_t *output, size_t output_length,
                                        struct rtr_stores_answer *answer)
{
    static size_t nowhere;
    return rtr_history_since_nonnull(rtr_readable(history), history_length, serial, version,
                                     work->index ? work->index : &nowhere, work->index_length,
                                     rtr_writable(work->buffer), work->buffer_length,
                                     rtr_writable(work->spare), work->spare_length,
                                     rtr_writable(output), output_length, answer);
}

/* Returns the present data of a history, in canonical form, of `length` bytes: what a router gets
 * that has none, in the version of the data. A null pointer if the bytes don't begin with the
 * data of a history. */
static inline const uint8_t *rtr_history_data(const uint8_t *history, size_t history_length,
                                              size_t *length)
{
    size_t offset;
    return rtr_history_data_nonnull(rtr_readable(history), history_length, &offset, length)
               ? history + offset
               : NULL;
}

/* Reports whether a history has data of this serial number, so that rtr_history_since writes the
 * changes since them. */
static inline bool rtr_history_knows(const uint8_t *history, size_t history_length, uint32_t serial)
{
    return rtr_history_knows_nonnull(rtr_readable(history), history_length, serial);
}

/* Writes the serial numbers of the earlier data of a history, the latest first: as many as
 * `answer->length`. One entry for each 16 bytes of the history always suffices.
 *
 * RTR_STORES_OK; or, with nothing written, RTR_STORES_NO_ROOM for the output, which has to have
 * `answer->wanted` entries; RTR_STORES_MALFORMED. */
static inline uint8_t rtr_history_serials(const uint8_t *history, size_t history_length,
                                          uint32_t *serials, size_t serials_length,
                                          struct rtr_stores_answer *answer)
{
    static uint32_t nowhere;
    return rtr_history_serials_nonnull(rtr_readable(history), history_length,
                                       serials ? serials : &nowhere, serials_length, answer);
}

/* Writes the head of a file that has this store behind it: the form of the file, the length of the
 * store, and its checksum. */
static inline void rtr_store_seal(const uint8_t *store, size_t store_length,
                                  struct rtr_store_head *head)
{
    rtr_store_seal_nonnull(rtr_readable(store), store_length, head);
}

/* Reports whether a file begins with the head of the bytes behind it, so that the store is all that
 * follows the first sizeof(struct rtr_store_head) bytes. rtr_stores_start still has to check it. */
static inline bool rtr_store_open(const uint8_t *file, size_t file_length)
{
    return rtr_store_open_nonnull(rtr_readable(file), file_length);
}

/* Writes the store of a file that a version before 0.3.0 saved, which begins with "rtrkept1" in the
 * place of the head: no sessions that were left, and the history of the file. The store is as long
 * as the file, and rtr_stores_start still has to check it.
 *
 * RTR_STORES_OK; or, with nothing written, RTR_STORES_MALFORMED for a file that isn't whole or has
 * another form, and RTR_STORES_NO_ROOM for the output. */
static inline uint8_t rtr_store_open_old(const uint8_t *file, size_t file_length,
                                         uint8_t *output, size_t output_length,
                                         struct rtr_stores_answer *answer)
{
    return rtr_store_open_old_nonnull(rtr_readable(file), file_length,
                                      rtr_writable(output), output_length, answer);
}

/* Returns the text of a rule on times, never null; any number may be passed. */
static inline const char *rtr_time_rule_text(uint8_t rule)
{
    static const char *const texts[] = {
        0,
        "the refresh time has to be 1 to 86400 seconds",
        "the retry time has to be 1 to 7200 seconds",
        "the expire time has to be 600 to 172800 seconds",
        "the expire time has to be longer than the refresh time",
        "the expire time has to be longer than the retry time",
    };
    return rule < sizeof texts / sizeof *texts && texts[rule] ? texts[rule] : "unknown time rule";
}

/* Returns the text of a reason, never null; any number may be passed. */
static inline const char *rtr_reason_text(uint8_t reason)
{
    static const char *const texts[] = {
        "the router closed the connection",
        "the router is too slow",
        "too many connections",
        "unit is refused",
        "the router reports an error",
        "unit is not a query",
        "unit of another version than the session",
        "version is not supported",
        "the data are of a new session",
        "no data of this session and serial number",
    };
    return reason < sizeof texts / sizeof *texts && texts[reason] ? texts[reason]
                                                                  : "unknown reason";
}

/* Returns the text of a status, never null; any number may be passed. */
static inline const char *rtr_status_text(uint8_t status)
{
    static const char *const texts[] = {
        "accepted",
        "unexpected end of input",
        "unit type is not allowed here",
        "version is not supported here",
        "unit is longer than 65535 bytes",
        "invalid unit length",
        "ASPA unit has no providers",
        "prefix fields are not allowed",
        "too many units",
        "no room in the output",
        "no unit has these fields",
        0,
        "not in canonical form",
        "of another session",
        "duplicate announcement",
        "withdrawal of an unknown record",
        "an ASPA is announced and then withdrawn",
        "no room in the index",
        "too many members",
        "of another version than the units before",
        "serial number before that of the data",
        "cache reset inside an answer",
        "error report inside an answer",
    };
    return status < sizeof texts / sizeof *texts && texts[status] ? texts[status]
                                                                  : "unknown status";
}

/* Returns the name of a kind, never null; any number may be passed. */
static inline const char *rtr_kind_text(uint8_t kind)
{
    static const char *const texts[] = {
        "serial notify",
        "serial query",
        "reset query",
        "cache response",
        "IPv4 prefix",
        0,
        "IPv6 prefix",
        "end of data",
        "cache reset",
        "router key",
        "error report",
        "ASPA",
    };
    return kind < sizeof texts / sizeof *texts && texts[kind] ? texts[kind] : "unknown kind";
}

#ifdef __cplusplus
}
#endif

#endif

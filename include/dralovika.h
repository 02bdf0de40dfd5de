/*
 * Dralovika: a proved reader of DEX files, for C and C++.
 *
 * Link with libdralovika.a (`rt lib` in crates/dralovika writes it for x86-64, into its out/, as compare/build does). It needs no other library. Nothing is
 * allocated, nothing is kept between calls, no call waits or fails: a function reads the lent file and writes its answer. Any bytes may be given as a file,
 * and any numbers. examples/check.c is a whole program.
 *
 * ---- Memory
 *
 * A file is a pointer and a length in bytes. Inputs (file, text) are never written, and may overlap each other: a text that is looked for may be a part of
 * the file. An output (out, flags, units) may overlap neither an input nor another output. During a call nothing else may write to its inputs, nor read or
 * write its outputs. No pointer may be null, also where the length or the room is 0, and each is aligned as its type asks.
 *
 *     output    room that is always enough             where the room is asked for
 *     out       DRALOVIKA_WORDS words                  always the same, and always written whole
 *     flags     DRALOVIKA_FLAGS_ROOM bytes             always the same
 *     units     as many units as the code has          dralovika_code: DRALOVIKA_CODE_UNITS
 *
 * `room` counts bytes for flags and 16-bit units for units. Where it is less than the whole answer, the call is refused with DRALOVIKA_REFUSAL_ROOM. An answer
 * writes its own places of flags and units and no others; where there is none, and on a refusal, they stay as they were.
 *
 * ---- Answers
 *
 * An answer is DRALOVIKA_WORDS words of 64 bits. out[DRALOVIKA_STATUS] says what it is:
 *
 *     DRALOVIKA_ANSWER   the words of the function's enum hold it; the words after them are 0
 *     DRALOVIKA_NONE     there is nothing there, and that is no fault: no class data, no code, no such string ..; the other words are 0
 *     DRALOVIKA_REFUSED  out[DRALOVIKA_REFUSED_NUMBER] is the rule that is broken, out[DRALOVIKA_REFUSED_PLACE] the place of the item that breaks it; the
 *                        other words are 0
 *
 * The enum stands before its function. A function whose comment begins with DRALOVIKA_NUMBER answers that one word. Inside an answer, DRALOVIKA_NOTHING stands
 * for a number that is not there (a class without a superclass).
 *
 * Numbers of strings, types, protos, fields, methods, classes and handles count from 0 in their tables. A place is a file offset. "or 0" after a place:
 * 0 where there is none.
 *
 * ---- Parts of the file
 *
 * A part of the file is handed out as its place and its length: its bytes are file[place] to file[place + length - 1], and are not copied. So three readers of
 * the crate `dex`, which hand out the bytes themselves, are these in C: dex::string_bytes is dralovika_string, dex::signature is dralovika_signature,
 * dex::line_program is dralovika_debug. Every other public reader of `dex` is here under its own name.
 */
#ifndef DRALOVIKA_H
#define DRALOVIKA_H

#include <stddef.h>
#include <stdint.h>

#ifdef __cplusplus
extern "C" {
#endif

/*
 * The version of what this header says. It goes on from dexparser 0.6.2, the Rust crate that was carried over, and counts as semver.org and Cargo do: while
 * MAJOR is 0, MINOR rises where a program written for the version before may have to change (a function, a word's position, what is refused and with which
 * number), PATCH where none has to.
 */
#define DRALOVIKA_VERSION "0.8.0"
#define DRALOVIKA_VERSION_MAJOR 0
#define DRALOVIKA_VERSION_MINOR 8
#define DRALOVIKA_VERSION_PATCH 0

/* How many words an answer has. */
#define DRALOVIKA_WORDS 20

/* Room for the flags of any class or member. */
#define DRALOVIKA_FLAGS_ROOM 18

/* The longest file that is read, in bytes. */
#define DRALOVIKA_LONGEST 67108864

/* None inside an answer, in the words that say so: no number of a table and no address is as large. */
#define DRALOVIKA_NOTHING UINT64_MAX

/* ---- What every answer has */

enum dralovika_status_words {
    DRALOVIKA_STATUS = 0
};

enum dralovika_status {
    DRALOVIKA_ANSWER = 0,
    DRALOVIKA_NONE = 1,
    DRALOVIKA_REFUSED = 2
};

enum dralovika_refused_words {
    DRALOVIKA_REFUSED_NUMBER = 1, /* an enum dralovika_refusal */
    DRALOVIKA_REFUSED_PLACE = 2   /* 0 for 1 to 7 and 19, and for the header */
};

/* The one word of an answer that is a number. */
enum dralovika_number_words {
    DRALOVIKA_NUMBER = 1
};

/* Which rule is broken: docs/RULES.md has them in full. */
enum dralovika_refusal {
    DRALOVIKA_REFUSAL_TOO_SHORT = 1,   /* the file has under 112 bytes */
    DRALOVIKA_REFUSAL_TOO_LONG = 2,    /* the file has over 67,108,864 bytes */
    DRALOVIKA_REFUSAL_MAGIC = 3,       /* it does not begin with "dex", a line feed, one of 035, 037, 038, 039, and a zero byte */
    DRALOVIKA_REFUSAL_ENDIAN_TAG = 4,  /* the endian tag says neither byte order */
    DRALOVIKA_REFUSAL_SIZES = 5,       /* the header size is not 112, or the file size is not the file's length */
    DRALOVIKA_REFUSAL_BOUNDS = 6,      /* a table or the data section breaks its bounds */
    DRALOVIKA_REFUSAL_NOT_THERE = 7,   /* the caller asks for a number that is not there, or for a place outside the data section */
    DRALOVIKA_REFUSAL_OFFSET = 8,      /* an offset leads out of the data section, or is no multiple of 4 where that is required */
    DRALOVIKA_REFUSAL_PAST_END = 9,    /* an item runs past the data section's end */
    DRALOVIKA_REFUSAL_LEB128 = 10,     /* a LEB128 number is malformed */
    DRALOVIKA_REFUSAL_INDEX = 11,      /* an index in the file is out of range */
    DRALOVIKA_REFUSAL_VALUE = 12,      /* a value's code or size argument is not allowed */
    DRALOVIKA_REFUSAL_DEPTH = 13,      /* bodies are nested deeper than 64 */
    DRALOVIKA_REFUSAL_TEXT = 14,       /* a text is malformed, or its length is wrong */
    DRALOVIKA_REFUSAL_ORDER = 15,      /* something is out of order, or there twice */
    DRALOVIKA_REFUSAL_MAP = 16,        /* the map breaks a rule */
    DRALOVIKA_REFUSAL_CODE = 17,       /* a code item breaks a rule */
    DRALOVIKA_REFUSAL_VISIBILITY = 18, /* a visibility is over 2, or a method handle's type over 8 */
    DRALOVIKA_REFUSAL_ROOM = 19,       /* a lent output is shorter than the whole answer */
    DRALOVIKA_REFUSAL_INPUT = 20,      /* the program dexcheck alone: the input has over 65,536 bytes. No function here answers it */
    DRALOVIKA_REFUSAL_VALUES = 21      /* a class has more static values than static fields; the place is the class record */
};

/* ---- The whole file */

/* The whole check. An answer of no words: the file is accepted. Then no function here refuses a number or a place that the file gives, where its outputs have
   room. */
void dralovika_check(const uint8_t *file, size_t length, uint64_t out[DRALOVIKA_WORDS]);

enum dralovika_byte_order {
    DRALOVIKA_LITTLE = 0,
    DRALOVIKA_BIG = 1
};

/* The header. Checksum and signature are handed out, not verified. */
enum dralovika_header_words {
    DRALOVIKA_HEADER_VERSION = 1, /* 35, 37, 38 or 39 */
    DRALOVIKA_HEADER_ORDER = 2,   /* an enum dralovika_byte_order */
    DRALOVIKA_HEADER_CHECKSUM = 3,
    DRALOVIKA_HEADER_MAP = 4, /* place of the map */
    DRALOVIKA_HEADER_STRINGS_COUNT = 5,
    DRALOVIKA_HEADER_STRINGS_PLACE = 6, /* places of tables: 0 where the count is 0 */
    DRALOVIKA_HEADER_TYPES_COUNT = 7,
    DRALOVIKA_HEADER_TYPES_PLACE = 8,
    DRALOVIKA_HEADER_PROTOS_COUNT = 9,
    DRALOVIKA_HEADER_PROTOS_PLACE = 10,
    DRALOVIKA_HEADER_FIELDS_COUNT = 11,
    DRALOVIKA_HEADER_FIELDS_PLACE = 12,
    DRALOVIKA_HEADER_METHODS_COUNT = 13,
    DRALOVIKA_HEADER_METHODS_PLACE = 14,
    DRALOVIKA_HEADER_CLASSES_COUNT = 15,
    DRALOVIKA_HEADER_CLASSES_PLACE = 16,
    DRALOVIKA_HEADER_DATA_START = 17, /* where the data section begins */
    DRALOVIKA_HEADER_DATA_END = 18    /* the first place behind it */
};
void dralovika_header(const uint8_t *file, size_t length, uint64_t out[DRALOVIKA_WORDS]);

/* Where the signature is. */
enum dralovika_signature_words {
    DRALOVIKA_SIGNATURE_PLACE = 1,
    DRALOVIKA_SIGNATURE_LENGTH = 2
};
void dralovika_signature(const uint8_t *file, size_t length, uint64_t out[DRALOVIKA_WORDS]);

/* ---- The map, and method handles */

/* DRALOVIKA_NUMBER: how many entries the map has */
void dralovika_map_count(const uint8_t *file, size_t length, uint64_t out[DRALOVIKA_WORDS]);

/* Entry k of the map, as it is stored. */
enum dralovika_map_entry_words {
    DRALOVIKA_MAP_ENTRY_TYPE = 1,
    DRALOVIKA_MAP_ENTRY_SIZE = 2,
    DRALOVIKA_MAP_ENTRY_OFFSET = 3
};
void dralovika_map_entry(const uint8_t *file, size_t length, uint32_t k, uint64_t out[DRALOVIKA_WORDS]);

/* DRALOVIKA_NUMBER: how many method handles there are */
void dralovika_handle_count(const uint8_t *file, size_t length, uint64_t out[DRALOVIKA_WORDS]);

/* Method handle n. */
enum dralovika_handle_words {
    DRALOVIKA_HANDLE_KIND = 1,  /* 0 to 8, as the format document has them */
    DRALOVIKA_HANDLE_NUMBER = 2 /* the field (kinds 0 to 3) or the method (4 to 8) that it names */
};
void dralovika_handle(const uint8_t *file, size_t length, uint32_t n, uint64_t out[DRALOVIKA_WORDS]);

/* ---- Strings, types, protos, fields, methods */

/* The text of string n: modified UTF-8, without the zero byte that ends it. */
enum dralovika_string_words {
    DRALOVIKA_STRING_PLACE = 1,
    DRALOVIKA_STRING_LENGTH = 2, /* in bytes */
    DRALOVIKA_STRING_UNITS = 3   /* its length in 16-bit units */
};
void dralovika_string(const uint8_t *file, size_t length, uint32_t n, uint64_t out[DRALOVIKA_WORDS]);

/* DRALOVIKA_NUMBER: the string that has those bytes (modified UTF-8, without a zero byte at the end); none where no string has them */
void dralovika_find_string(const uint8_t *file, size_t length, const uint8_t *text, size_t text_length, uint64_t out[DRALOVIKA_WORDS]);

/* DRALOVIKA_NUMBER: the string of type n */
void dralovika_type_name(const uint8_t *file, size_t length, uint32_t n, uint64_t out[DRALOVIKA_WORDS]);

/* Proto n. */
enum dralovika_proto_words {
    DRALOVIKA_PROTO_SHORTY = 1, /* a string */
    DRALOVIKA_PROTO_RETURN_TYPE = 2,
    DRALOVIKA_PROTO_PARAMETERS = 3 /* place of the parameter list or 0 */
};
void dralovika_proto(const uint8_t *file, size_t length, uint32_t n, uint64_t out[DRALOVIKA_WORDS]);

/* DRALOVIKA_NUMBER: how many parameters proto n has */
void dralovika_parameter_count(const uint8_t *file, size_t length, uint32_t n, uint64_t out[DRALOVIKA_WORDS]);

/* DRALOVIKA_NUMBER: the type of parameter k of proto n */
void dralovika_parameter(const uint8_t *file, size_t length, uint32_t n, uint32_t k, uint64_t out[DRALOVIKA_WORDS]);

/* Field n. */
enum dralovika_field_words {
    DRALOVIKA_FIELD_CLASS = 1, /* a type */
    DRALOVIKA_FIELD_TYPE = 2,
    DRALOVIKA_FIELD_NAME = 3 /* a string */
};
void dralovika_field(const uint8_t *file, size_t length, uint32_t n, uint64_t out[DRALOVIKA_WORDS]);

/* Method n. */
enum dralovika_method_words {
    DRALOVIKA_METHOD_CLASS = 1, /* a type */
    DRALOVIKA_METHOD_PROTO = 2,
    DRALOVIKA_METHOD_NAME = 3 /* a string */
};
void dralovika_method(const uint8_t *file, size_t length, uint32_t n, uint64_t out[DRALOVIKA_WORDS]);

/* ---- Classes */

/* Class n. */
enum dralovika_class_words {
    DRALOVIKA_CLASS_TYPE = 1,
    DRALOVIKA_CLASS_FLAGS = 2,        /* access flags, as they are stored */
    DRALOVIKA_CLASS_SUPERCLASS = 3,   /* a type or DRALOVIKA_NOTHING */
    DRALOVIKA_CLASS_INTERFACES = 4,   /* place of the list or 0 */
    DRALOVIKA_CLASS_SOURCE = 5,       /* source file: a string or DRALOVIKA_NOTHING */
    DRALOVIKA_CLASS_DIRECTORY = 6,    /* place of the annotation directory or 0 */
    DRALOVIKA_CLASS_DATA = 7,         /* place of the class data or 0 */
    DRALOVIKA_CLASS_STATIC_VALUES = 8 /* place of the array of static values or 0 */
};
void dralovika_class(const uint8_t *file, size_t length, uint32_t n, uint64_t out[DRALOVIKA_WORDS]);

/* DRALOVIKA_NUMBER: how many interfaces class n has */
void dralovika_interface_count(const uint8_t *file, size_t length, uint32_t n, uint64_t out[DRALOVIKA_WORDS]);

/* DRALOVIKA_NUMBER: the type of interface k of class n */
void dralovika_interface(const uint8_t *file, size_t length, uint32_t n, uint32_t k, uint64_t out[DRALOVIKA_WORDS]);

/* DRALOVIKA_NUMBER: how many bytes were written: the flags of class n as bit numbers 0 to 17, rising, one byte each, without 6 and 7 */
void dralovika_class_flags(const uint8_t *file, size_t length, uint32_t n, uint8_t *flags, size_t room, uint64_t out[DRALOVIKA_WORDS]);

/* The class data of class c: how many members each list has; none without class data. */
enum dralovika_class_data_words {
    DRALOVIKA_CLASS_DATA_STATICS = 1,
    DRALOVIKA_CLASS_DATA_INSTANCES = 2,
    DRALOVIKA_CLASS_DATA_DIRECTS = 3,
    DRALOVIKA_CLASS_DATA_VIRTUALS = 4
};
void dralovika_class_data(const uint8_t *file, size_t length, uint32_t c, uint64_t out[DRALOVIKA_WORDS]);

/* The lists of class data, for `list` below. */
enum dralovika_list {
    DRALOVIKA_LIST_STATIC_FIELDS = 0,
    DRALOVIKA_LIST_INSTANCE_FIELDS = 1,
    DRALOVIKA_LIST_DIRECT_METHODS = 2,
    DRALOVIKA_LIST_VIRTUAL_METHODS = 3
};

/* Member k of a list of class c; none without class data. */
enum dralovika_member_words {
    DRALOVIKA_MEMBER_INDEX = 1, /* the field or the method */
    DRALOVIKA_MEMBER_FLAGS = 2, /* access flags, as they are stored */
    DRALOVIKA_MEMBER_CODE = 3   /* place of the code or 0 */
};
void dralovika_member(const uint8_t *file, size_t length, uint32_t c, uint32_t list, uint32_t k, uint64_t out[DRALOVIKA_WORDS]);

/* DRALOVIKA_NUMBER: how many bytes were written: its flags as bit numbers 0 to 17, rising, one byte each; none without class data */
void dralovika_member_flags(const uint8_t *file, size_t length, uint32_t c, uint32_t list, uint32_t k, uint8_t *flags, size_t room,
    uint64_t out[DRALOVIKA_WORDS]);

/* ---- Code: of member k of a list of methods of class c. None where there is no class data or no code; 7 for a list of fields. */

/* The code item's sizes, counts and places. */
enum dralovika_code_words {
    DRALOVIKA_CODE_REGISTERS = 1,
    DRALOVIKA_CODE_INS = 2,
    DRALOVIKA_CODE_OUTS = 3,
    DRALOVIKA_CODE_TRIES = 4,    /* how many tries */
    DRALOVIKA_CODE_DEBUG = 5,    /* place of the debug information or 0 */
    DRALOVIKA_CODE_UNITS = 6,    /* how many 16-bit units */
    DRALOVIKA_CODE_HANDLERS = 7, /* how many handlers */
    /* places of the first try and of the handler list, and the first behind the item; without tries all three are where the units end */
    DRALOVIKA_CODE_FIRST_TRY = 8,
    DRALOVIKA_CODE_HANDLER_LIST = 9,
    DRALOVIKA_CODE_END = 10
};
void dralovika_code(const uint8_t *file, size_t length, uint32_t c, uint32_t list, uint32_t k, uint64_t out[DRALOVIKA_WORDS]);

/* DRALOVIKA_NUMBER: how many units were written: the instructions, each unit as a number of this machine, whatever the file's byte order */
void dralovika_units(const uint8_t *file, size_t length, uint32_t c, uint32_t list, uint32_t k, uint16_t *units, size_t room,
    uint64_t out[DRALOVIKA_WORDS]);

/* Try t. */
enum dralovika_try_item_words {
    DRALOVIKA_TRY_ITEM_START = 1,          /* its first unit */
    DRALOVIKA_TRY_ITEM_COUNT = 2,          /* how many units */
    DRALOVIKA_TRY_ITEM_HANDLER_OFFSET = 3, /* its handler's offset in the handler list */
    DRALOVIKA_TRY_ITEM_HANDLER_NUMBER = 4  /* its handler's number */
};
void dralovika_try_item(const uint8_t *file, size_t length, uint32_t c, uint32_t list, uint32_t k, uint32_t t, uint64_t out[DRALOVIKA_WORDS]);

/* DRALOVIKA_NUMBER: the try that covers an address; none where no try does */
void dralovika_covering_try(const uint8_t *file, size_t length, uint32_t c, uint32_t list, uint32_t k, uint32_t address, uint64_t out[DRALOVIKA_WORDS]);

/* DRALOVIKA_NUMBER: how many handlers */
void dralovika_handler_count(const uint8_t *file, size_t length, uint32_t c, uint32_t list, uint32_t k, uint64_t out[DRALOVIKA_WORDS]);

/* Handler h. */
enum dralovika_handler_words {
    DRALOVIKA_HANDLER_OFFSET = 1,   /* its offset in the handler list */
    DRALOVIKA_HANDLER_PAIRS = 2,    /* how many pairs */
    DRALOVIKA_HANDLER_CATCH_ALL = 3 /* the address of its catch-all or DRALOVIKA_NOTHING */
};
void dralovika_handler(const uint8_t *file, size_t length, uint32_t c, uint32_t list, uint32_t k, uint32_t h, uint64_t out[DRALOVIKA_WORDS]);

/* Pair p of handler h. */
enum dralovika_handler_pair_words {
    DRALOVIKA_HANDLER_PAIR_TYPE = 1,
    DRALOVIKA_HANDLER_PAIR_ADDRESS = 2
};
void dralovika_handler_pair(const uint8_t *file, size_t length, uint32_t c, uint32_t list, uint32_t k, uint32_t h, uint32_t p, uint64_t out[DRALOVIKA_WORDS]);

/* ---- Debug information of that code. None where there is no class data, no code or no debug information. */

/* The debug information. */
enum dralovika_debug_words {
    DRALOVIKA_DEBUG_LINE = 1,          /* starting line */
    DRALOVIKA_DEBUG_NAMES = 2,         /* how many parameter names */
    DRALOVIKA_DEBUG_PROGRAM_PLACE = 3, /* the line program, without its zero byte */
    DRALOVIKA_DEBUG_PROGRAM_LENGTH = 4
};
void dralovika_debug(const uint8_t *file, size_t length, uint32_t c, uint32_t list, uint32_t k, uint64_t out[DRALOVIKA_WORDS]);

/* DRALOVIKA_NUMBER: the name of parameter p (a string) or DRALOVIKA_NOTHING */
void dralovika_debug_parameter(const uint8_t *file, size_t length, uint32_t c, uint32_t list, uint32_t k, uint32_t p, uint64_t out[DRALOVIKA_WORDS]);

/* ---- Values */

/* A value. */
enum dralovika_value_words {
    DRALOVIKA_VALUE_KIND = 1,   /* an enum dralovika_value_kind */
    DRALOVIKA_VALUE_NUMBER = 2, /* as the kind says */
    DRALOVIKA_VALUE_LENGTH = 3  /* of an array or annotation: the length of its body in bytes; otherwise 0 */
};

/* An element: a value, and its name. */
enum dralovika_element_words {
    DRALOVIKA_ELEMENT_NAME = 4 /* a string */
};

/* What a value is, and what its number is. */
enum dralovika_value_kind {
    DRALOVIKA_KIND_BYTE = 0x00,   /* signed: take the number as an int64_t */
    DRALOVIKA_KIND_SHORT = 0x02,  /* signed */
    DRALOVIKA_KIND_CHAR = 0x03,   /* 0 to 65535 */
    DRALOVIKA_KIND_INT = 0x04,    /* signed */
    DRALOVIKA_KIND_LONG = 0x06,   /* signed */
    DRALOVIKA_KIND_FLOAT = 0x10,  /* the bits of the float */
    DRALOVIKA_KIND_DOUBLE = 0x11, /* the bits of the double */
    DRALOVIKA_KIND_PROTO = 0x15,  /* from here to the enum: a number in its table */
    DRALOVIKA_KIND_HANDLE = 0x16,
    DRALOVIKA_KIND_STRING = 0x17,
    DRALOVIKA_KIND_TYPE = 0x18,
    DRALOVIKA_KIND_FIELD = 0x19,
    DRALOVIKA_KIND_METHOD = 0x1a,
    DRALOVIKA_KIND_ENUM = 0x1b,       /* a field */
    DRALOVIKA_KIND_ARRAY = 0x1c,      /* the place of its body, for dralovika_array */
    DRALOVIKA_KIND_ANNOTATION = 0x1d, /* the place of its body, for dralovika_annotation_body */
    DRALOVIKA_KIND_NULL = 0x1e,       /* 0 */
    DRALOVIKA_KIND_BOOLEAN = 0x1f     /* 0 false, 1 true */
};

/* DRALOVIKA_NUMBER: how many static values class c has */
void dralovika_static_value_count(const uint8_t *file, size_t length, uint32_t c, uint64_t out[DRALOVIKA_WORDS]);

/* A value: static value k of class c */
void dralovika_static_value(const uint8_t *file, size_t length, uint32_t c, uint32_t k, uint64_t out[DRALOVIKA_WORDS]);

/* A static field with its value: the value, and these. */
enum dralovika_static_words {
    DRALOVIKA_STATIC_FIELD = 4, /* a field */
    DRALOVIKA_STATIC_FLAGS = 5,
    DRALOVIKA_STATIC_STORED = 6 /* 1 where the value is stored; 0 where the class has no value for the field, and this is the zero, false or null of its type */
};

/* A static field with its value: static field k of class c; none where the class has no class data. Where the class has no value k, the value is the zero of a
   type B, S, C, I, J, F or D, false for Z, and null for any other. Refused with 21 where the class has more values than static fields. */
void dralovika_static_field(const uint8_t *file, size_t length, uint32_t c, uint32_t k, uint64_t out[DRALOVIKA_WORDS]);

/* The first static field of class c whose value has the wrong kind; none where every kind fits. The types Z, B, S, C, I, J, F and D take the kinds boolean, byte,
   short, char, int, long, float and double, and any other type takes those from proto to null. Only values that are stored are asked about. */
enum dralovika_wrong_kind_words {
    DRALOVIKA_WRONG_KIND_NUMBER = 1, /* k, as dralovika_static_field takes it */
    DRALOVIKA_WRONG_KIND_FIELD = 2
};
void dralovika_wrong_kind(const uint8_t *file, size_t length, uint32_t c, uint64_t out[DRALOVIKA_WORDS]);

/* The array at a place. */
enum dralovika_array_words {
    DRALOVIKA_ARRAY_COUNT = 1, /* how many values */
    DRALOVIKA_ARRAY_LENGTH = 2 /* in bytes */
};
void dralovika_array(const uint8_t *file, size_t length, size_t place, uint64_t out[DRALOVIKA_WORDS]);

/* A value: value k of the array at a place */
void dralovika_array_value(const uint8_t *file, size_t length, size_t place, uint32_t k, uint64_t out[DRALOVIKA_WORDS]);

/* The annotation body at a place. */
enum dralovika_annotation_body_words {
    DRALOVIKA_ANNOTATION_BODY_TYPE = 1,
    DRALOVIKA_ANNOTATION_BODY_COUNT = 2, /* how many elements */
    DRALOVIKA_ANNOTATION_BODY_LENGTH = 3 /* in bytes */
};
void dralovika_annotation_body(const uint8_t *file, size_t length, size_t place, uint64_t out[DRALOVIKA_WORDS]);

/* An element: element k of the annotation body at a place */
void dralovika_annotation_body_element(const uint8_t *file, size_t length, size_t place, uint32_t k, uint64_t out[DRALOVIKA_WORDS]);

/* ---- Annotations */

/* The annotation directory of class c; none where it has none. */
enum dralovika_directory_words {
    DRALOVIKA_DIRECTORY_CLASS_SET = 1, /* place of the class's own set or 0 */
    DRALOVIKA_DIRECTORY_FIELDS = 2,    /* how many field entries */
    DRALOVIKA_DIRECTORY_METHODS = 3,   /* how many method entries */
    DRALOVIKA_DIRECTORY_PARAMETERS = 4 /* how many parameter entries */
};
void dralovika_directory(const uint8_t *file, size_t length, uint32_t c, uint64_t out[DRALOVIKA_WORDS]);

/* Entry e of the directory's fields, methods, parameters. */
enum dralovika_entry_words {
    DRALOVIKA_ENTRY_INDEX = 1, /* the field or the method */
    DRALOVIKA_ENTRY_PLACE = 2  /* the place of its set, for parameters of its reference list */
};
void dralovika_field_entry(const uint8_t *file, size_t length, uint32_t c, uint32_t e, uint64_t out[DRALOVIKA_WORDS]);
void dralovika_method_entry(const uint8_t *file, size_t length, uint32_t c, uint32_t e, uint64_t out[DRALOVIKA_WORDS]);
void dralovika_parameter_entry(const uint8_t *file, size_t length, uint32_t c, uint32_t e, uint64_t out[DRALOVIKA_WORDS]);

/* DRALOVIKA_NUMBER: how many annotations the class, the field or the method has. An absent set is empty. */
void dralovika_class_annotation_count(const uint8_t *file, size_t length, uint32_t c, uint64_t out[DRALOVIKA_WORDS]);
void dralovika_field_annotation_count(const uint8_t *file, size_t length, uint32_t c, uint32_t e, uint64_t out[DRALOVIKA_WORDS]);
void dralovika_method_annotation_count(const uint8_t *file, size_t length, uint32_t c, uint32_t e, uint64_t out[DRALOVIKA_WORDS]);

/* DRALOVIKA_NUMBER: the place of its annotation k, for dralovika_annotation and dralovika_annotation_element */
void dralovika_class_annotation_place(const uint8_t *file, size_t length, uint32_t c, uint32_t k, uint64_t out[DRALOVIKA_WORDS]);
void dralovika_field_annotation_place(const uint8_t *file, size_t length, uint32_t c, uint32_t e, uint32_t k, uint64_t out[DRALOVIKA_WORDS]);
void dralovika_method_annotation_place(const uint8_t *file, size_t length, uint32_t c, uint32_t e, uint32_t k, uint64_t out[DRALOVIKA_WORDS]);

/* DRALOVIKA_NUMBER: how many parameters the parameter entry e has sets for, absent ones too */
void dralovika_parameter_set_count(const uint8_t *file, size_t length, uint32_t c, uint32_t e, uint64_t out[DRALOVIKA_WORDS]);

/* DRALOVIKA_NUMBER: how many annotations parameter p of entry e has, and the place of its annotation k */
void dralovika_parameter_annotation_count(const uint8_t *file, size_t length, uint32_t c, uint32_t e, uint32_t p, uint64_t out[DRALOVIKA_WORDS]);
void dralovika_parameter_annotation_place(const uint8_t *file, size_t length, uint32_t c, uint32_t e, uint32_t p, uint32_t k, uint64_t out[DRALOVIKA_WORDS]);

enum dralovika_visibility {
    DRALOVIKA_VISIBILITY_BUILD = 0,
    DRALOVIKA_VISIBILITY_RUNTIME = 1,
    DRALOVIKA_VISIBILITY_SYSTEM = 2
};

/* The annotation item at a place. */
enum dralovika_annotation_words {
    DRALOVIKA_ANNOTATION_VISIBILITY = 1, /* an enum dralovika_visibility */
    DRALOVIKA_ANNOTATION_TYPE = 2,
    DRALOVIKA_ANNOTATION_COUNT = 3 /* how many elements */
};
void dralovika_annotation(const uint8_t *file, size_t length, size_t place, uint64_t out[DRALOVIKA_WORDS]);

/* An element: element k of the annotation item at a place */
void dralovika_annotation_element(const uint8_t *file, size_t length, size_t place, uint32_t k, uint64_t out[DRALOVIKA_WORDS]);

#ifdef __cplusplus
}
#endif

#endif

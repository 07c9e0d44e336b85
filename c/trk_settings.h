// Reads a settings file, and writes it at another version (docs/SETTINGS-FILE.md). For C99 and C++; link target/staticlib/libsettings_updater.a.
//
// Each function is given a file as a pointer to its first byte and the number of bytes that are there. Opening and storing files is the caller's. Any bytes, any
// size and any numbers are met with an answer; a file that is refused answers 0 to every question but those for its refusal.
//
// A caller keeps this, and for trk_settings_save what stands there: from `file` on, `size` bytes can be read, and nobody changes them while a call runs. They need not be aligned. Where
// `size` is 0 the pointer is not looked at and may be null. Only trk_settings_save writes, and only to its buffer. Nothing is kept from one call to the next.

#ifndef TRK_SETTINGS_H
#define TRK_SETTINGS_H

#include <stddef.h>
#include <stdint.h>

#ifdef __cplusplus
extern "C" {
#endif

// The bytes of a file, by its version.
#define TRK_SETTINGS_V1_BYTES 29
#define TRK_SETTINGS_V2_BYTES 35

// ---- Whether a file is accepted

// Why the file is refused, 0 where it is accepted. The first of these that hits answers:
//   35  fewer than 5 bytes
//   31  it does not begin with the mark, the letters TRK
//   32  a version other than 1 and 2
//   35  another number of bytes than its version has
//   16  settings that break the rules, or that are not spelled in their one way
uint8_t trk_settings_refusal(const uint8_t *file, size_t size);

// The same of the reader of version 1, which answers 32 to every version but 1. It is what a shelf with older firmware would answer.
uint8_t trk_settings_v1_refusal(const uint8_t *file, size_t size);

// ---- Its numbers; 0 where trk_settings_refusal refuses it

// 1 or 2.
uint16_t trk_settings_version(const uint8_t *file, size_t size);

// The managing controller, and its descriptor limit.
uint16_t trk_settings_manager(const uint8_t *file, size_t size);
uint16_t trk_settings_limit(const uint8_t *file, size_t size);

// The least and the greatest granularity.
uint8_t trk_settings_least(const uint8_t *file, size_t size);
uint8_t trk_settings_greatest(const uint8_t *file, size_t size);

// 1 if lengths must be powers of two, else 0.
uint8_t trk_settings_rule(const uint8_t *file, size_t size);

// How many controllers may be tracked, 1 to 8, and the identifier of the one in a place, counted from 0; past the last it is 0.
uint64_t trk_settings_count(const uint8_t *file, size_t size);
uint16_t trk_settings_identifier(const uint8_t *file, size_t size, uint64_t place);

// The second managing controller, and its descriptor limit. Where there is none: the first one, and 0.
uint16_t trk_settings_second(const uint8_t *file, size_t size);
uint16_t trk_settings_second_limit(const uint8_t *file, size_t size);

// The limit over both managers' descriptors. A file of version 1 has 128.
uint16_t trk_settings_shelf(const uint8_t *file, size_t size);

// ---- At another version

// Writes the file's settings as a file of a version to the front of a buffer, and answers 0; bytes after it stay as they were. The first of these that hits
// answers instead, and then no byte is changed:
//       what trk_settings_refusal answers
//   32  a version that can't hold them: any but 1 and 2, and 1 for two managers or a limit over both other than 128
//    8  a buffer too short
// From `buffer` on, `room` bytes can be written, and they share none with the file's. Where `room` is 0 the pointer is not looked at.
uint8_t trk_settings_save(const uint8_t *file, size_t size, uint16_t version, uint8_t *buffer, size_t room);

#ifdef __cplusplus
}
#endif

#endif

// Reads a report of changed memory (NVMe: Tracked Memory Changed data structure). For C99 and C++; link target/staticlib/libreport_reader.a.
//
// Each function is given a report as a pointer to its first byte and the number of bytes that are there, and answers one number. Any bytes, any size and
// any index are met with an answer; whatever is refused answers 0 to every question but those for its refusal, the index of its bad descriptor and a run by
// itself.
//
// A caller keeps this, and nothing else: from `report` on, `size` bytes can be read, and nobody changes them while a call runs. They need not be aligned.
// Where `size` is 0 the pointer is not looked at and may be null. Nothing is written, and nothing is kept from one call to the next.

#ifndef TMC_REPORT_H
#define TMC_REPORT_H

#include <stddef.h>
#include <stdint.h>

#ifdef __cplusplus
extern "C" {
#endif

// ---- The whole report

// Why the report is refused, 0 where it is accepted. The first of these that hits answers:
//    8  fewer than 16 bytes
//    6  another version than 0
//    7  a granularity above 20
//    9  More To Report is set and there are no descriptors
//    8  the descriptors are not wholly there
//   17  a bad descriptor: of length 0, with an address that is no multiple of the unit, or ending past 2^64
// Reserved bits and bytes, and all that follows the last descriptor, are not looked at.
uint8_t tmc_report_refusal(const uint8_t *report, size_t size);

// Where the report is refused with 17, the index of the first bad descriptor, counted from 0; else 0.
uint64_t tmc_report_bad_index(const uint8_t *report, size_t size);

// ---- Its header; 0 where the report is refused

// 1 if the controller was suspended, else 0.
uint8_t tmc_report_suspended(const uint8_t *report, size_t size);

// 1 if more runs wait for the next report, else 0.
uint8_t tmc_report_more(const uint8_t *report, size_t size);

// The controller's identifier.
uint16_t tmc_report_identifier(const uint8_t *report, size_t size);

// The granularity n, 0 to 20: a unit is 2^(12 + n) bytes.
uint16_t tmc_report_granularity(const uint8_t *report, size_t size);

// How many descriptors there are; each is a run of changed memory.
uint32_t tmc_report_count(const uint8_t *report, size_t size);

// ---- Its descriptors, by an index counted from 0

// Why there is no descriptor at this index, 0 where there is one: what the report is refused for, else 33 for an index past the last descriptor.
uint8_t tmc_report_refusal_at(const uint8_t *report, size_t size, uint64_t index);

// The address of the first byte of the run at this index; 0 where that is refused.
uint64_t tmc_report_address(const uint8_t *report, size_t size, uint64_t index);

// The length of the run at this index, in units and not in bytes; 0 where that is refused.
// In bytes it fits 64 bits; the address of the byte after the run may be 2^64, which does not.
uint32_t tmc_report_length(const uint8_t *report, size_t size, uint64_t index);

// ---- A run by itself, for a loop over the runs
//
// Each function above looks at the whole report. These two look at the header's count and at one descriptor, whatever else the report holds. Where it is not
// refused they answer what tmc_report_address and tmc_report_length do, at every index; so a loop asks for the refusal once, of the bytes that it goes over:
//
//     if (tmc_report_refusal(report, size) == 0) {
//         uint64_t unit = (uint64_t)4096 << tmc_report_granularity(report, size);
//         uint32_t count = tmc_report_count(report, size);
//         for (uint32_t i = 0; i < count; i++)
//             copy(tmc_report_run_address(report, size, i), tmc_report_run_length(report, size, i) * unit);
//     }

// The address of the first byte of the run at this index; 0 where the header or this descriptor is not wholly there, or the index is not below the count.
uint64_t tmc_report_run_address(const uint8_t *report, size_t size, uint64_t index);

// The length of the run at this index, in units; 0 where its address is for these reasons.
uint32_t tmc_report_run_length(const uint8_t *report, size_t size, uint64_t index);

#ifdef __cplusplus
}
#endif

#endif

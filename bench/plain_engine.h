/* The engine in plain C, by the rules of docs/MANUAL.md and apart from the Rattle sources: the functions of kexbardi.h
 * under the prefix plain_, with the same parameters, answers and memory. Tests and benchmarks put it beside the
 * archive. Nothing is proved of it. */
#ifndef PLAIN_ENGINE_H
#define PLAIN_ENGINE_H

#include <stddef.h>
#include <stdint.h>

#ifdef __cplusplus
extern "C" {
#endif

uint8_t plain_reset(uint16_t *words, size_t words_length, int64_t *records, size_t records_length);

uint8_t plain_store(uint16_t *words, size_t words_length, int64_t *records, size_t records_length, uint64_t address,
    uint16_t value);

uint8_t plain_sample(uint16_t *words, size_t words_length, int64_t *records, size_t records_length, uint64_t loop, uint64_t raw,
    uint16_t line[4]);

uint8_t plain_forecast(const uint16_t *words, size_t words_length, const int64_t *records, size_t records_length, uint64_t loop,
    uint64_t *samples);

uint8_t plain_record(const int64_t *records, size_t records_length, uint64_t loop, int64_t fields[14]);

uint8_t plain_run(const uint8_t *file, size_t file_length, uint16_t *words, size_t words_length, int64_t *records,
    size_t records_length, uint8_t *answers, size_t answers_length, size_t *count, size_t *refused);

uint8_t plain_print(const uint8_t *file, size_t file_length, uint8_t *out, size_t out_length, size_t *length);

uint8_t plain_setup(const uint16_t *words, size_t words_length, uint8_t *out, size_t out_length, size_t *length);

#ifdef __cplusplus
}
#endif

#endif

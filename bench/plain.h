#ifndef PLAIN_H
#define PLAIN_H

#include "lamp.h"

struct lamp_answer plain_exact(const uint8_t *, size_t, uint8_t *, size_t, uint8_t *, size_t);
struct lamp_answer plain_coarse(const uint8_t *, size_t, uint8_t *, size_t, uint8_t *, size_t);
struct lamp_answer plain_exact_search(const uint8_t *, size_t, uint8_t *, size_t, uint8_t *, size_t);
struct lamp_answer plain_coarse_search(const uint8_t *, size_t, uint8_t *, size_t, uint8_t *, size_t);
struct lamp_answer plain_groups(const uint8_t *, size_t, const uint16_t *, size_t, uint64_t, uint8_t *, size_t, uint8_t *, size_t);
struct lamp_answer plain_sheet(const uint8_t *, size_t, const uint8_t *, size_t, uint8_t *, size_t);
struct lamp_answer plain_mark(const uint8_t *, size_t, const uint8_t *, size_t);
struct lamp_points plain_explain(const uint8_t *, size_t, const uint8_t *, size_t, uint8_t *, size_t);
struct lamp_answer plain_practice(uint32_t, uint8_t *, size_t);
struct lamp_answer plain_table(uint64_t, uint8_t *, size_t);
struct lamp_answer plain_rounded(uint64_t, uint64_t);

struct lamp_reply plain_open(struct lamp_sitting, uint16_t, uint64_t, const uint8_t *, size_t, uint8_t *, size_t, uint8_t *, size_t,
                             struct lamp_seat *, size_t);
struct lamp_reply plain_seat(struct lamp_sitting, uint16_t, uint16_t, struct lamp_seat *, size_t);
struct lamp_reply plain_close(struct lamp_sitting, uint16_t);
struct lamp_reply plain_submit(struct lamp_sitting, uint16_t, const uint8_t *, size_t, const uint8_t *, size_t, struct lamp_seat *, size_t);
struct lamp_reply plain_least(struct lamp_sitting, uint16_t, const struct lamp_seat *, size_t);
struct lamp_reply plain_lowest(struct lamp_sitting, uint16_t, uint16_t, const struct lamp_seat *, size_t);
struct lamp_reply plain_used(struct lamp_sitting, uint16_t);

#endif

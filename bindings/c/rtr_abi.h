/* The functions of the archive behind the calls of rtr.h that take slices: their names have
 * _nonnull added, and rtr_link_state_of is behind rtr_link_state. No pointer may be null; with
 * length 0 any other pointer is allowed. rtr.h includes this file and documents its calls, which
 * programs use. `generate` made this file of the crate rtr_c: don't edit it.
 *
 * Copyright (c) 2026, the authors of Fishreef
 * BSD 3-Clause License: see the file LICENSE at the top of the repository.
 */
#ifndef FISHREEF_RTR_ABI_H
#define FISHREEF_RTR_ABI_H

#include <stdbool.h>
#include <stddef.h>
#include <stdint.h>

#ifdef __cplusplus
extern "C" {
#endif

struct rtr_action;
struct rtr_answer;
struct rtr_cache;
struct rtr_check;
struct rtr_checked;
struct rtr_comparison;
struct rtr_covering;
struct rtr_data_answer;
struct rtr_finding;
struct rtr_history_limits;
struct rtr_line;
struct rtr_link;
struct rtr_link_state;
struct rtr_loaded;
struct rtr_lookup;
struct rtr_naming;
struct rtr_present;
struct rtr_route;
struct rtr_router;
struct rtr_serving;
struct rtr_store_head;
struct rtr_stores;
struct rtr_stores_answer;
struct rtr_stores_state;
struct rtr_todo;
struct rtr_unit;

uint8_t rtr_normalise_slice_nonnull(const uint8_t *input, size_t input_length,
                                    uint8_t *output, size_t output_length, uint64_t limit,
                                    struct rtr_answer *answer);
uint8_t rtr_normalise_for_slice_nonnull(const uint8_t *input, size_t input_length,
                                        uint8_t *output, size_t output_length, uint64_t limit,
                                        uint8_t version, struct rtr_answer *answer);
uint8_t rtr_unit_size_nonnull(const uint8_t *input, size_t input_length, size_t *size,
                              uint8_t *detail);
uint8_t rtr_next_nonnull(const uint8_t *input, size_t input_length, struct rtr_unit *unit);
uint8_t rtr_next_many_nonnull(const uint8_t *input, size_t input_length,
                              struct rtr_unit *units, size_t units_length, size_t *count,
                              size_t *taken);
uint8_t rtr_line_nonnull(const uint8_t *input, size_t input_length, uint64_t offset,
                         uint8_t *output, size_t output_length, struct rtr_line *answer);
uint8_t rtr_json_nonnull(const uint8_t *input, size_t input_length, uint64_t offset,
                         uint8_t *output, size_t output_length, struct rtr_line *answer);
uint8_t rtr_change_line_nonnull(const uint8_t *input, size_t input_length,
                                uint8_t *output, size_t output_length, struct rtr_line *answer);
uint8_t rtr_change_json_nonnull(const uint8_t *input, size_t input_length,
                                uint8_t *output, size_t output_length, struct rtr_line *answer);
uint8_t rtr_text_nonnull(uint8_t status, uint8_t detail, uint8_t *output, size_t output_length,
                         size_t *length);
uint8_t rtr_text_at_nonnull(uint8_t status, uint8_t detail, uint64_t offset,
                            uint8_t *output, size_t output_length, size_t *length);
uint8_t rtr_report_text_nonnull(uint16_t code, const uint8_t *reported, size_t reported_length,
                                uint8_t *output, size_t output_length, size_t *length);
uint8_t rtr_name_nonnull(uint8_t named, uint16_t number, uint8_t *output, size_t output_length,
                         size_t *length);
bool rtr_provider_nonnull(const struct rtr_unit *unit, const uint8_t *input, size_t input_length,
                          size_t index, uint32_t *provider);
bool rtr_error_code_nonnull(uint8_t status, const uint8_t *input, size_t input_length,
                            uint16_t *code);
uint8_t rtr_write_unit_nonnull(const struct rtr_unit *unit,
                               const uint8_t *input, size_t input_length,
                               uint8_t *output, size_t output_length, size_t *written);
uint8_t rtr_same_meaning_nonnull(const uint8_t *left, size_t left_length,
                                 const uint8_t *right, size_t right_length, uint64_t limit,
                                 struct rtr_comparison *answer);
uint8_t rtr_delta_nonnull(const uint8_t *old_data, size_t old_data_length,
                          const uint8_t *new_data, size_t new_data_length,
                          uint8_t *output, size_t output_length, struct rtr_data_answer *answer);
uint8_t rtr_changes_between_nonnull(const uint8_t *old_data, size_t old_data_length,
                                    const uint8_t *new_data, size_t new_data_length,
                                    uint8_t *output, size_t output_length,
                                    struct rtr_data_answer *answer);
uint8_t rtr_apply_nonnull(const uint8_t *data, size_t data_length,
                          const uint8_t *changes, size_t changes_length,
                          uint8_t *output, size_t output_length, struct rtr_data_answer *answer);
uint8_t rtr_apply_in_order_nonnull(const uint8_t *data, size_t data_length,
                                   const uint8_t *changes, size_t changes_length,
                                   size_t *index, size_t index_length,
                                   uint8_t *output, size_t output_length,
                                   struct rtr_data_answer *answer);
uint8_t rtr_order_nonnull(const uint8_t *input, size_t input_length,
                          size_t *index, size_t index_length, uint8_t *output, size_t output_length,
                          struct rtr_data_answer *answer);
uint8_t rtr_load_nonnull(const uint8_t *input, size_t input_length,
                         size_t *index, size_t index_length, uint8_t *work, size_t work_length,
                         uint8_t *output, size_t output_length, struct rtr_loaded *loaded);
size_t rtr_end_offset_nonnull(const uint8_t *data, size_t data_length);
uint8_t rtr_check_data_nonnull(const uint8_t *data, size_t data_length, struct rtr_lookup *lookup,
                               struct rtr_data_answer *answer);
uint8_t rtr_validate_nonnull(const uint8_t *data, size_t data_length,
                             const struct rtr_lookup *lookup, const struct rtr_route *route);
size_t rtr_validate_many_nonnull(const uint8_t *data, size_t data_length,
                                 const struct rtr_lookup *lookup,
                                 const struct rtr_route *routes, size_t routes_length,
                                 uint8_t *validities, size_t validities_length);
uint8_t rtr_covering_nonnull(const uint8_t *data, size_t data_length,
                             const struct rtr_lookup *lookup, const struct rtr_route *route,
                             size_t from, struct rtr_covering *covering);
uint8_t rtr_check_name_nonnull(const uint8_t *input, size_t input_length,
                               uint8_t *output, size_t output_length, struct rtr_naming *answer);
uint8_t rtr_check_unit_nonnull(struct rtr_check *check, const uint8_t *input, size_t input_length,
                               bool was_there, struct rtr_checked *answer);
size_t rtr_finding_line_nonnull(const struct rtr_finding *finding, uint64_t offset,
                                uint8_t *output, size_t output_length);
void rtr_router_read_nonnull(struct rtr_router *router, uint64_t now,
                             const uint8_t *input, size_t input_length, bool ended,
                             struct rtr_action *action);
size_t rtr_router_query_nonnull(const struct rtr_action *action,
                                uint8_t *output, size_t output_length);
bool rtr_router_report_nonnull(const struct rtr_action *action,
                               const uint8_t *input, size_t input_length,
                               uint8_t *output, size_t output_length, size_t *written);
uint8_t rtr_link_received_nonnull(struct rtr_link *link, const uint8_t *input, size_t input_length,
                                  size_t size);
uint8_t rtr_link_sent_nonnull(struct rtr_link *link, uint8_t *output, size_t output_length,
                              size_t size);
uint8_t rtr_link_next_nonnull(struct rtr_link *link, uint64_t now,
                              uint8_t *input, size_t input_length,
                              uint8_t *first, size_t first_length,
                              uint8_t *second, size_t second_length,
                              size_t *index, size_t index_length,
                              uint8_t *output, size_t output_length, struct rtr_todo *todo);
uint8_t rtr_link_ask_now_nonnull(struct rtr_link *link, uint64_t now,
                                 uint8_t *input, size_t input_length,
                                 uint8_t *output, size_t output_length, struct rtr_todo *todo);
uint8_t rtr_link_give_up_nonnull(struct rtr_link *link, uint64_t now,
                                 uint8_t *input, size_t input_length,
                                 uint8_t *output, size_t output_length, struct rtr_todo *todo);
uint8_t rtr_link_state_of(const struct rtr_link *link, uint64_t now, size_t input, size_t first,
                          size_t second, size_t output, struct rtr_link_state *state);
void rtr_cache_read_nonnull(struct rtr_cache *cache, uint64_t now,
                            const struct rtr_present *present,
                            const uint32_t *kept, size_t kept_length,
                            const uint8_t *input, size_t input_length, bool ended,
                            struct rtr_serving *serving);
size_t rtr_cache_unit_nonnull(const struct rtr_serving *serving,
                              uint8_t *output, size_t output_length);
bool rtr_cache_report_nonnull(const struct rtr_serving *serving,
                              const uint8_t *input, size_t input_length,
                              uint8_t *output, size_t output_length, size_t *written);
uint8_t rtr_stores_start_nonnull(struct rtr_stores *stores, size_t size,
                                 const uint8_t *first, size_t first_length,
                                 size_t *index, size_t index_length,
                                 uint8_t *buffer, size_t buffer_length,
                                 struct rtr_stores_answer *answer);
uint8_t rtr_stores_take_nonnull(struct rtr_stores *stores, const uint8_t *data, size_t data_length,
                                uint64_t now, const struct rtr_history_limits *limits,
                                uint8_t *buffer, size_t buffer_length,
                                uint8_t *spare, size_t spare_length,
                                uint8_t *first, size_t first_length,
                                uint8_t *second, size_t second_length,
                                struct rtr_stores_answer *answer);
uint8_t rtr_stores_state_nonnull(const struct rtr_stores *stores,
                                 const uint8_t *first, size_t first_length,
                                 const uint8_t *second, size_t second_length,
                                 struct rtr_stores_state *state);
uint8_t rtr_history_since_nonnull(const uint8_t *history, size_t history_length, uint32_t serial,
                                  uint8_t version, size_t *index, size_t index_length,
                                  uint8_t *buffer, size_t buffer_length,
                                  uint8_t *spare, size_t spare_length,
                                  uint8_t *output, size_t output_length,
                                  struct rtr_stores_answer *answer);
bool rtr_history_data_nonnull(const uint8_t *history, size_t history_length, size_t *offset,
                              size_t *length);
bool rtr_history_knows_nonnull(const uint8_t *history, size_t history_length, uint32_t serial);
uint8_t rtr_history_serials_nonnull(const uint8_t *history, size_t history_length,
                                    uint32_t *serials, size_t serials_length,
                                    struct rtr_stores_answer *answer);
void rtr_store_seal_nonnull(const uint8_t *store, size_t store_length, struct rtr_store_head *head);
bool rtr_store_open_nonnull(const uint8_t *file, size_t file_length);
uint8_t rtr_store_open_old_nonnull(const uint8_t *file, size_t file_length,
                                   uint8_t *output, size_t output_length,
                                   struct rtr_stores_answer *answer);

#ifdef __cplusplus
}
#endif

#endif

/* The calls of rtr.h for cgo: what they write to pointers is returned by value, so that it stays on
 * the stack of Go, and small structs are passed by value. `generate` made this file of
 * the crate rtr_c: don't edit it. */
#include "rtr.h"

static inline struct rtr_answer normalise_slice(
	const uint8_t *input, size_t input_length, uint8_t *output, size_t output_length,
	uint64_t limit)
{
	struct rtr_answer answer;
	rtr_normalise_slice(input, input_length, output, output_length, limit, &answer);
	return answer;
}

static inline struct rtr_answer normalise_for_slice(
	const uint8_t *input, size_t input_length, uint8_t *output, size_t output_length,
	uint64_t limit, uint8_t version)
{
	struct rtr_answer answer;
	rtr_normalise_for_slice(input, input_length, output, output_length, limit, version,
		&answer);
	return answer;
}

struct unit_size_result {
	size_t size;
	uint8_t detail;
	uint8_t result;
};

static inline struct unit_size_result unit_size(
	const uint8_t *input, size_t input_length)
{
	struct unit_size_result all;
	all.result = rtr_unit_size(input, input_length, &all.size, &all.detail);
	return all;
}

struct next_result {
	struct rtr_unit unit;
	uint8_t result;
};

static inline struct next_result next(
	const uint8_t *input, size_t input_length)
{
	struct next_result all;
	all.result = rtr_next(input, input_length, &all.unit);
	return all;
}

struct next_many_result {
	size_t count;
	size_t taken;
	uint8_t result;
};

static inline struct next_many_result next_many(
	const uint8_t *input, size_t input_length, struct rtr_unit *units, size_t units_length)
{
	struct next_many_result all;
	all.result = rtr_next_many(input, input_length, units, units_length, &all.count,
		&all.taken);
	return all;
}

static inline struct rtr_line line(
	const uint8_t *input, size_t input_length, uint64_t offset, uint8_t *output,
	size_t output_length)
{
	struct rtr_line answer;
	rtr_line(input, input_length, offset, output, output_length, &answer);
	return answer;
}

static inline struct rtr_line json(
	const uint8_t *input, size_t input_length, uint64_t offset, uint8_t *output,
	size_t output_length)
{
	struct rtr_line answer;
	rtr_json(input, input_length, offset, output, output_length, &answer);
	return answer;
}

static inline struct rtr_line change_line(
	const uint8_t *input, size_t input_length, uint8_t *output, size_t output_length)
{
	struct rtr_line answer;
	rtr_change_line(input, input_length, output, output_length, &answer);
	return answer;
}

static inline struct rtr_line change_json(
	const uint8_t *input, size_t input_length, uint8_t *output, size_t output_length)
{
	struct rtr_line answer;
	rtr_change_json(input, input_length, output, output_length, &answer);
	return answer;
}

struct text_result {
	size_t text_length;
	uint8_t result;
};

static inline struct text_result text(
	uint8_t status, uint8_t detail, uint8_t *output, size_t output_length)
{
	struct text_result all;
	all.result = rtr_text(status, detail, output, output_length, &all.text_length);
	return all;
}

struct text_at_result {
	size_t text_length;
	uint8_t result;
};

static inline struct text_at_result text_at(
	uint8_t status, uint8_t detail, uint64_t offset, uint8_t *output, size_t output_length)
{
	struct text_at_result all;
	all.result = rtr_text_at(status, detail, offset, output, output_length, &all.text_length);
	return all;
}

struct report_text_result {
	size_t text_length;
	uint8_t result;
};

static inline struct report_text_result report_text(
	uint16_t code, const uint8_t *reported, size_t reported_length, uint8_t *output,
	size_t output_length)
{
	struct report_text_result all;
	all.result = rtr_report_text(code, reported, reported_length, output, output_length,
		&all.text_length);
	return all;
}

struct name_result {
	size_t text_length;
	uint8_t result;
};

static inline struct name_result name(
	uint8_t named, uint16_t number, uint8_t *output, size_t output_length)
{
	struct name_result all;
	all.result = rtr_name(named, number, output, output_length, &all.text_length);
	return all;
}

struct provider_result {
	uint32_t provider;
	bool result;
};

static inline struct provider_result provider(
	struct rtr_unit unit, const uint8_t *input, size_t input_length, size_t index)
{
	struct provider_result all;
	all.result = rtr_provider(&unit, input, input_length, index, &all.provider);
	return all;
}

struct error_code_result {
	uint16_t code;
	bool result;
};

static inline struct error_code_result error_code(
	uint8_t status, const uint8_t *input, size_t input_length)
{
	struct error_code_result all;
	all.result = rtr_error_code(status, input, input_length, &all.code);
	return all;
}

struct write_unit_result {
	size_t written;
	uint8_t result;
};

static inline struct write_unit_result write_unit(
	struct rtr_unit unit, const uint8_t *input, size_t input_length, uint8_t *output,
	size_t output_length)
{
	struct write_unit_result all;
	all.result = rtr_write_unit(&unit, input, input_length, output, output_length,
		&all.written);
	return all;
}

static inline struct rtr_comparison same_meaning(
	const uint8_t *left, size_t left_length, const uint8_t *right, size_t right_length,
	uint64_t limit)
{
	struct rtr_comparison answer;
	rtr_same_meaning(left, left_length, right, right_length, limit, &answer);
	return answer;
}

static inline struct rtr_data_answer delta(
	const uint8_t *old_data, size_t old_data_length, const uint8_t *new_data,
	size_t new_data_length, uint8_t *output, size_t output_length)
{
	struct rtr_data_answer answer;
	rtr_delta(old_data, old_data_length, new_data, new_data_length, output, output_length,
		&answer);
	return answer;
}

static inline struct rtr_data_answer changes_between(
	const uint8_t *old_data, size_t old_data_length, const uint8_t *new_data,
	size_t new_data_length, uint8_t *output, size_t output_length)
{
	struct rtr_data_answer answer;
	rtr_changes_between(old_data, old_data_length, new_data, new_data_length, output,
		output_length, &answer);
	return answer;
}

static inline struct rtr_data_answer apply(
	const uint8_t *data, size_t data_length, const uint8_t *changes, size_t changes_length,
	uint8_t *output, size_t output_length)
{
	struct rtr_data_answer answer;
	rtr_apply(data, data_length, changes, changes_length, output, output_length, &answer);
	return answer;
}

static inline struct rtr_data_answer apply_in_order(
	const uint8_t *data, size_t data_length, const uint8_t *changes, size_t changes_length,
	size_t *index, size_t index_length, uint8_t *output, size_t output_length)
{
	struct rtr_data_answer answer;
	rtr_apply_in_order(data, data_length, changes, changes_length, index, index_length, output,
		output_length, &answer);
	return answer;
}

static inline struct rtr_data_answer order(
	const uint8_t *input, size_t input_length, size_t *index, size_t index_length,
	uint8_t *output, size_t output_length)
{
	struct rtr_data_answer answer;
	rtr_order(input, input_length, index, index_length, output, output_length, &answer);
	return answer;
}

static inline struct rtr_loaded load(
	const uint8_t *input, size_t input_length, size_t *index, size_t index_length,
	uint8_t *work, size_t work_length, uint8_t *output, size_t output_length)
{
	struct rtr_loaded loaded;
	rtr_load(input, input_length, index, index_length, work, work_length, output,
		output_length, &loaded);
	return loaded;
}

struct check_data_result {
	struct rtr_lookup lookup;
	struct rtr_data_answer answer;
};

static inline struct check_data_result check_data(
	const uint8_t *data, size_t data_length)
{
	struct check_data_result all;
	rtr_check_data_nonnull(rtr_readable(data), data_length, &all.lookup, &all.answer);
	return all;
}

static inline uint8_t validate(
	const uint8_t *data, size_t data_length, const struct rtr_lookup *lookup,
	struct rtr_route route)
{
	return rtr_validate_nonnull(rtr_readable(data), data_length, lookup, &route);
}

struct covering_result {
	struct rtr_covering covering;
	uint8_t result;
};

static inline struct covering_result covering(
	const uint8_t *data, size_t data_length, const struct rtr_lookup *lookup,
	struct rtr_route route, size_t from)
{
	struct covering_result all;
	all.result = rtr_covering_nonnull(rtr_readable(data), data_length, lookup, &route, from,
		&all.covering);
	return all;
}

static inline struct rtr_naming check_name(
	const uint8_t *input, size_t input_length, uint8_t *output, size_t output_length)
{
	struct rtr_naming answer;
	rtr_check_name(input, input_length, output, output_length, &answer);
	return answer;
}

struct check_unit_result {
	struct rtr_check check;
	struct rtr_checked answer;
};

static inline struct check_unit_result check_unit(
	struct rtr_check check, const uint8_t *input, size_t input_length, bool was_there)
{
	struct check_unit_result all;
	all.check = check;
	rtr_check_unit(&all.check, input, input_length, was_there, &all.answer);
	return all;
}

static inline struct rtr_finding check_end(
	struct rtr_check check)
{
	struct rtr_finding finding;
	rtr_check_end(&check, &finding);
	return finding;
}

static inline size_t finding_line(
	struct rtr_finding finding, uint64_t offset, uint8_t *output, size_t output_length)
{
	return rtr_finding_line(&finding, offset, output, output_length);
}

static inline void router_init(
	struct rtr_router *router, struct rtr_settings settings)
{
	rtr_router_init(router, &settings);
}

static inline struct rtr_action router_tick(
	struct rtr_router *router, uint64_t now)
{
	struct rtr_action action;
	rtr_router_tick(router, now, &action);
	return action;
}

static inline struct rtr_action router_asked(
	struct rtr_router *router, uint64_t now)
{
	struct rtr_action action;
	rtr_router_asked(router, now, &action);
	return action;
}

static inline struct rtr_action router_connected(
	struct rtr_router *router, uint64_t now)
{
	struct rtr_action action;
	rtr_router_connected(router, now, &action);
	return action;
}

static inline struct rtr_action router_lost(
	struct rtr_router *router, uint64_t now)
{
	struct rtr_action action;
	rtr_router_lost(router, now, &action);
	return action;
}

static inline struct rtr_action router_applied(
	struct rtr_router *router, uint64_t now)
{
	struct rtr_action action;
	rtr_router_applied(router, now, &action);
	return action;
}

static inline struct rtr_action router_not_applied(
	struct rtr_router *router, uint64_t now, uint8_t status)
{
	struct rtr_action action;
	rtr_router_not_applied(router, now, status, &action);
	return action;
}

static inline struct rtr_action router_read(
	struct rtr_router *router, uint64_t now, const uint8_t *input, size_t input_length,
	bool ended)
{
	struct rtr_action action;
	rtr_router_read(router, now, input, input_length, ended, &action);
	return action;
}

static inline size_t router_query(
	struct rtr_action action, uint8_t *output, size_t output_length)
{
	return rtr_router_query(&action, output, output_length);
}

struct router_report_result {
	size_t written;
	bool result;
};

static inline struct router_report_result router_report(
	struct rtr_action action, const uint8_t *input, size_t input_length, uint8_t *output,
	size_t output_length)
{
	struct router_report_result all;
	all.result = rtr_router_report(&action, input, input_length, output, output_length,
		&all.written);
	return all;
}

static inline void link_init(
	struct rtr_link *link, struct rtr_settings settings)
{
	rtr_link_init(link, &settings);
}

static inline uint8_t link_received(
	struct rtr_link *link, struct rtr_link_buffers buffers, size_t size)
{
	return rtr_link_received(link, &buffers, size);
}

static inline uint8_t link_sent(
	struct rtr_link *link, struct rtr_link_buffers buffers, size_t size)
{
	return rtr_link_sent(link, &buffers, size);
}

struct link_next_result {
	struct rtr_todo todo;
	uint8_t result;
};

static inline struct link_next_result link_next(
	struct rtr_link *link, struct rtr_link_buffers buffers, uint64_t now)
{
	struct link_next_result all;
	all.result = rtr_link_next(link, &buffers, now, &all.todo);
	return all;
}

struct link_ask_now_result {
	struct rtr_todo todo;
	uint8_t result;
};

static inline struct link_ask_now_result link_ask_now(
	struct rtr_link *link, struct rtr_link_buffers buffers, uint64_t now)
{
	struct link_ask_now_result all;
	all.result = rtr_link_ask_now(link, &buffers, now, &all.todo);
	return all;
}

struct link_give_up_result {
	struct rtr_todo todo;
	uint8_t result;
};

static inline struct link_give_up_result link_give_up(
	struct rtr_link *link, struct rtr_link_buffers buffers, uint64_t now)
{
	struct link_give_up_result all;
	all.result = rtr_link_give_up(link, &buffers, now, &all.todo);
	return all;
}

static inline uint8_t todo_failure(
	struct rtr_todo todo, bool gave_up)
{
	return rtr_todo_failure(&todo, gave_up);
}

struct link_state_result {
	struct rtr_link_state state;
	uint8_t result;
};

static inline struct link_state_result link_state(
	const struct rtr_link *link, struct rtr_link_buffers buffers, uint64_t now)
{
	struct link_state_result all;
	all.result = rtr_link_state(link, &buffers, now, &all.state);
	return all;
}

static inline struct rtr_group_settings group_usual(
	struct rtr_group_settings settings)
{
	rtr_group_usual(&settings);
	return settings;
}

static inline uint8_t group_init(
	struct rtr_group *group, struct rtr_group_settings settings, size_t count, uint64_t now)
{
	return rtr_group_init(group, &settings, count, now);
}

struct group_best_result {
	size_t member;
	bool result;
};

static inline struct group_best_result group_best(
	struct rtr_group group)
{
	struct group_best_result all;
	all.result = rtr_group_best(&group, &all.member);
	return all;
}

static inline bool group_counts(
	struct rtr_group group, size_t payloads)
{
	return rtr_group_counts(&group, payloads);
}

static inline uint64_t group_wakes(
	struct rtr_group group)
{
	return rtr_group_wakes(&group);
}

static inline struct rtr_group_answer group_tick(
	struct rtr_group *group, uint64_t now)
{
	struct rtr_group_answer answer;
	rtr_group_tick(group, now, &answer);
	return answer;
}

struct group_tell_result {
	struct rtr_group_answer answer;
	uint8_t result;
};

static inline struct group_tell_result group_tell(
	struct rtr_group *group, uint64_t now, size_t member, struct rtr_todo todo,
	size_t payloads)
{
	struct group_tell_result all;
	all.result = rtr_group_tell(group, now, member, &todo, payloads, &all.answer);
	return all;
}

static inline struct rtr_group_answer group_shows(
	struct rtr_group *group, uint64_t now, size_t member, size_t payloads)
{
	struct rtr_group_answer answer;
	rtr_group_shows(group, now, member, payloads, &answer);
	return answer;
}

static inline struct rtr_group_answer group_drops(
	struct rtr_group *group, uint64_t now, size_t member)
{
	struct rtr_group_answer answer;
	rtr_group_drops(group, now, member, &answer);
	return answer;
}

static inline struct rtr_group_answer group_fails(
	struct rtr_group *group, uint64_t now, size_t member)
{
	struct rtr_group_answer answer;
	rtr_group_fails(group, now, member, &answer);
	return answer;
}

static inline void cache_init(
	struct rtr_cache *cache, uint64_t now, struct rtr_cache_settings settings)
{
	rtr_cache_init(cache, now, &settings);
}

static inline struct rtr_serving cache_tick(
	struct rtr_cache *cache, uint64_t now, struct rtr_present present)
{
	struct rtr_serving serving;
	rtr_cache_tick(cache, now, &present, &serving);
	return serving;
}

static inline struct rtr_serving cache_full(
	struct rtr_cache *cache, uint64_t now, struct rtr_present present)
{
	struct rtr_serving serving;
	rtr_cache_full(cache, now, &present, &serving);
	return serving;
}

static inline struct rtr_serving cache_lost(
	struct rtr_cache *cache, uint64_t now, struct rtr_present present)
{
	struct rtr_serving serving;
	rtr_cache_lost(cache, now, &present, &serving);
	return serving;
}

static inline uint64_t cache_wakes(
	struct rtr_cache cache, struct rtr_present present)
{
	return rtr_cache_wakes(&cache, &present);
}

static inline struct rtr_serving cache_read(
	struct rtr_cache *cache, uint64_t now, struct rtr_present present, const uint32_t *kept,
	size_t kept_length, const uint8_t *input, size_t input_length, bool ended)
{
	struct rtr_serving serving;
	rtr_cache_read(cache, now, &present, kept, kept_length, input, input_length, ended,
		&serving);
	return serving;
}

static inline size_t cache_unit(
	struct rtr_serving serving, uint8_t *output, size_t output_length)
{
	return rtr_cache_unit(&serving, output, output_length);
}

struct cache_report_result {
	size_t written;
	bool result;
};

static inline struct cache_report_result cache_report(
	struct rtr_serving serving, const uint8_t *input, size_t input_length, uint8_t *output,
	size_t output_length)
{
	struct cache_report_result all;
	all.result = rtr_cache_report(&serving, input, input_length, output, output_length,
		&all.written);
	return all;
}

static inline bool server_keeps(
	struct rtr_server_settings settings, size_t kept_bytes, size_t length)
{
	return rtr_server_keeps(&settings, kept_bytes, length);
}

static inline void door_init(
	struct rtr_door *door, struct rtr_server_settings settings)
{
	rtr_door_init(door, &settings);
}

static inline uint8_t door_next(
	struct rtr_door door, bool spare)
{
	return rtr_door_next(&door, spare);
}

static inline void connection_init(
	struct rtr_connection *connection, uint64_t now, struct rtr_server_settings settings)
{
	rtr_connection_init(connection, now, &settings);
}

static inline bool connection_reads(
	struct rtr_connection connection)
{
	return rtr_connection_reads(&connection);
}

struct connection_next_result {
	uint8_t cut;
	uint8_t result;
};

static inline struct connection_next_result connection_next(
	struct rtr_connection connection, uint64_t now, struct rtr_cache cache,
	struct rtr_present present, uint64_t number)
{
	struct connection_next_result all;
	all.result = rtr_connection_next(&connection, now, &cache, &present, number, &all.cut);
	return all;
}

static inline uint64_t connection_wakes(
	struct rtr_connection connection, struct rtr_cache cache, struct rtr_present present)
{
	return rtr_connection_wakes(&connection, &cache, &present);
}

static inline struct rtr_stores_answer stores_start(
	struct rtr_stores *stores, size_t size, struct rtr_stores_buffers buffers,
	struct rtr_work work)
{
	struct rtr_stores_answer answer;
	rtr_stores_start(stores, size, &buffers, &work, &answer);
	return answer;
}

static inline struct rtr_stores_answer stores_take(
	struct rtr_stores *stores, const uint8_t *new, size_t new_length, uint64_t now,
	struct rtr_history_limits limits, struct rtr_stores_buffers buffers, struct rtr_work work)
{
	struct rtr_stores_answer answer;
	rtr_stores_take(stores, new, new_length, now, &limits, &buffers, &work, &answer);
	return answer;
}

static inline uint8_t stores_version(
	struct rtr_present present, uint8_t present_version, uint16_t session, uint8_t version)
{
	return rtr_stores_version(&present, present_version, session, version);
}

struct stores_state_result {
	struct rtr_stores_state state;
	uint8_t result;
};

static inline struct stores_state_result stores_state(
	struct rtr_stores stores, struct rtr_stores_buffers buffers)
{
	struct stores_state_result all;
	all.result = rtr_stores_state(&stores, &buffers, &all.state);
	return all;
}

static inline struct rtr_stores_answer history_since(
	const uint8_t *history, size_t history_length, uint32_t serial, uint8_t version,
	struct rtr_work work, uint8_t *output, size_t output_length)
{
	struct rtr_stores_answer answer;
	rtr_history_since(history, history_length, serial, version, &work, output, output_length,
		&answer);
	return answer;
}

struct history_data_result {
	size_t offset;
	size_t length;
	bool result;
};

static inline struct history_data_result history_data(
	const uint8_t *history, size_t history_length)
{
	struct history_data_result all;
	all.result = rtr_history_data_nonnull(rtr_readable(history), history_length, &all.offset,
		&all.length);
	return all;
}

static inline struct rtr_stores_answer history_serials(
	const uint8_t *history, size_t history_length, uint32_t *serials, size_t serials_length)
{
	struct rtr_stores_answer answer;
	rtr_history_serials(history, history_length, serials, serials_length, &answer);
	return answer;
}

static inline struct rtr_store_head store_seal(
	const uint8_t *store, size_t store_length)
{
	struct rtr_store_head head;
	rtr_store_seal(store, store_length, &head);
	return head;
}

static inline struct rtr_stores_answer store_open_old(
	const uint8_t *file, size_t file_length, uint8_t *output, size_t output_length)
{
	struct rtr_stores_answer answer;
	rtr_store_open_old(file, file_length, output, output_length, &answer);
	return answer;
}

/* The sizes of structs and the places of their fields, if a size_t has eight bytes. `generate` made
 * this file of the crate rtr_c: don't edit it. */
#include "rtr.h"

#define AT(type, field, offset) \
    _Static_assert(offsetof(struct type, field) == (offset), #type " " #field)

_Static_assert(sizeof(bool) == 1, "bool");

#if SIZE_MAX == UINT64_MAX
_Static_assert(sizeof(struct rtr_answer) == 48, "rtr_answer");
AT(rtr_answer, units, 0);
AT(rtr_answer, forms, 8);
AT(rtr_answer, taken, 16);
AT(rtr_answer, written, 24);
AT(rtr_answer, wanted, 32);
AT(rtr_answer, status, 40);
AT(rtr_answer, detail, 41);

_Static_assert(sizeof(struct rtr_data_answer) == 24, "rtr_data_answer");
AT(rtr_data_answer, written, 0);
AT(rtr_data_answer, offset, 8);
AT(rtr_data_answer, status, 16);
AT(rtr_data_answer, side, 17);
AT(rtr_data_answer, detail, 18);

_Static_assert(sizeof(struct rtr_loaded) == 48, "rtr_loaded");
AT(rtr_loaded, length, 0);
AT(rtr_loaded, offset, 8);
AT(rtr_loaded, wanted, 16);
AT(rtr_loaded, serial, 24);
AT(rtr_loaded, refresh, 28);
AT(rtr_loaded, retry, 32);
AT(rtr_loaded, expire, 36);
AT(rtr_loaded, session, 40);
AT(rtr_loaded, version, 42);
AT(rtr_loaded, has_cut, 43);
AT(rtr_loaded, status, 44);
AT(rtr_loaded, detail, 45);

_Static_assert(sizeof(struct rtr_comparison) == 24, "rtr_comparison");
AT(rtr_comparison, offset, 0);
AT(rtr_comparison, wanted, 8);
AT(rtr_comparison, status, 16);
AT(rtr_comparison, side, 17);
AT(rtr_comparison, detail, 18);
AT(rtr_comparison, same, 19);

_Static_assert(sizeof(struct rtr_line) == 32, "rtr_line");
AT(rtr_line, size, 0);
AT(rtr_line, length, 8);
AT(rtr_line, wanted, 16);
AT(rtr_line, status, 24);
AT(rtr_line, detail, 25);

_Static_assert(sizeof(struct rtr_unit) == 120, "rtr_unit");
AT(rtr_unit, size, 0);
AT(rtr_unit, wanted, 8);
AT(rtr_unit, part_start, 16);
AT(rtr_unit, part_length, 24);
AT(rtr_unit, text_start, 32);
AT(rtr_unit, text_length, 40);
AT(rtr_unit, asn, 48);
AT(rtr_unit, customer, 52);
AT(rtr_unit, serial, 56);
AT(rtr_unit, refresh, 60);
AT(rtr_unit, retry, 64);
AT(rtr_unit, expire, 68);
AT(rtr_unit, session, 72);
AT(rtr_unit, code, 74);
AT(rtr_unit, kind, 76);
AT(rtr_unit, version, 77);
AT(rtr_unit, action, 78);
AT(rtr_unit, family, 79);
AT(rtr_unit, prefix_length, 80);
AT(rtr_unit, max_length, 81);
AT(rtr_unit, address, 82);
AT(rtr_unit, key_identifier, 98);
AT(rtr_unit, detail, 118);

_Static_assert(sizeof(struct rtr_route) == 24, "rtr_route");
AT(rtr_route, asn, 0);
AT(rtr_route, family, 4);
AT(rtr_route, prefix_length, 5);
AT(rtr_route, address, 6);

_Static_assert(sizeof(struct rtr_tables) == 2328, "rtr_tables");
AT(rtr_tables, ipv4, 0);
AT(rtr_tables, ipv6, 8);
AT(rtr_tables, starts, 16);
AT(rtr_tables, shortest_ipv4, 2064);
AT(rtr_tables, shortest_ipv6, 2065);
AT(rtr_tables, shortest, 2066);

_Static_assert(sizeof(struct rtr_lookup) == 2344, "rtr_lookup");
AT(rtr_lookup, length, 0);
AT(rtr_lookup, seal, 8);
AT(rtr_lookup, tables, 16);

_Static_assert(sizeof(struct rtr_covering) == 16, "rtr_covering");
AT(rtr_covering, place, 0);
AT(rtr_covering, asn, 8);
AT(rtr_covering, prefix_length, 12);
AT(rtr_covering, max_length, 13);
AT(rtr_covering, mismatch, 14);

_Static_assert(sizeof(struct rtr_check) == 6, "rtr_check");
AT(rtr_check, session, 0);
AT(rtr_check, version, 2);
AT(rtr_check, has_session, 3);
AT(rtr_check, has_version, 4);
AT(rtr_check, stage, 5);

_Static_assert(sizeof(struct rtr_finding) == 6, "rtr_finding");
AT(rtr_finding, value, 0);
AT(rtr_finding, begun, 2);
AT(rtr_finding, rule, 4);

_Static_assert(sizeof(struct rtr_checked) == 64, "rtr_checked");
AT(rtr_checked, size, 0);
AT(rtr_checked, wanted, 8);
AT(rtr_checked, findings, 16);
AT(rtr_checked, status, 58);
AT(rtr_checked, detail, 59);

_Static_assert(sizeof(struct rtr_naming) == 32, "rtr_naming");
AT(rtr_naming, size, 0);
AT(rtr_naming, length, 8);
AT(rtr_naming, wanted, 16);
AT(rtr_naming, status, 24);
AT(rtr_naming, detail, 25);
AT(rtr_naming, begins, 26);
AT(rtr_naming, announces, 27);

_Static_assert(sizeof(struct rtr_settings) == 40, "rtr_settings");
AT(rtr_settings, most_bytes, 0);
AT(rtr_settings, pause, 8);
AT(rtr_settings, connect_limit, 12);
AT(rtr_settings, response_limit, 16);
AT(rtr_settings, refresh, 20);
AT(rtr_settings, retry, 24);
AT(rtr_settings, expire, 28);
AT(rtr_settings, most_units, 32);
AT(rtr_settings, chance, 36);
AT(rtr_settings, highest, 38);

_Static_assert(sizeof(struct rtr_known) == 20, "rtr_known");
AT(rtr_known, serial, 0);
AT(rtr_known, refresh, 4);
AT(rtr_known, retry, 8);
AT(rtr_known, expire, 12);
AT(rtr_known, session, 16);
AT(rtr_known, version, 18);

_Static_assert(sizeof(struct rtr_router) == 168, "rtr_router");
AT(rtr_router, settings, 0);
AT(rtr_router, expires, 40);
AT(rtr_router, came, 48);
AT(rtr_router, asked, 56);
AT(rtr_router, tried, 64);
AT(rtr_router, due, 72);
AT(rtr_router, rises, 80);
AT(rtr_router, bytes, 88);
AT(rtr_router, known, 96);
AT(rtr_router, answer, 116);
AT(rtr_router, wait, 136);
AT(rtr_router, rise_wait, 140);
AT(rtr_router, units, 144);
AT(rtr_router, note, 148);
AT(rtr_router, session, 152);
AT(rtr_router, phase, 154);
AT(rtr_router, version, 155);
AT(rtr_router, floor, 156);
AT(rtr_router, agreed, 157);
AT(rtr_router, fell, 158);
AT(rtr_router, silent, 159);
AT(rtr_router, changes, 160);
AT(rtr_router, resync, 161);
AT(rtr_router, answered, 162);
AT(rtr_router, noted, 163);
AT(rtr_router, has_data, 164);

_Static_assert(sizeof(struct rtr_action) == 40, "rtr_action");
AT(rtr_action, start, 0);
AT(rtr_action, taken, 8);
AT(rtr_action, wanted, 16);
AT(rtr_action, serial, 24);
AT(rtr_action, session, 28);
AT(rtr_action, code, 30);
AT(rtr_action, kind, 32);
AT(rtr_action, version, 33);
AT(rtr_action, cause, 34);
AT(rtr_action, status, 35);
AT(rtr_action, detail, 36);
AT(rtr_action, changes, 37);
AT(rtr_action, drops, 38);
AT(rtr_action, reports, 39);

_Static_assert(sizeof(struct rtr_link) == 232, "rtr_link");
AT(rtr_link, settings, 0);
AT(rtr_link, expires, 40);
AT(rtr_link, came, 48);
AT(rtr_link, asked, 56);
AT(rtr_link, tried, 64);
AT(rtr_link, due, 72);
AT(rtr_link, rises, 80);
AT(rtr_link, bytes, 88);
AT(rtr_link, latest, 96);
AT(rtr_link, received, 104);
AT(rtr_link, kept, 112);
AT(rtr_link, end_size, 120);
AT(rtr_link, filled, 128);
AT(rtr_link, shown, 136);
AT(rtr_link, unsent, 144);
AT(rtr_link, known, 152);
AT(rtr_link, answer, 172);
AT(rtr_link, wait, 192);
AT(rtr_link, rise_wait, 196);
AT(rtr_link, units, 200);
AT(rtr_link, note, 204);
AT(rtr_link, mark, 208);
AT(rtr_link, session, 212);
AT(rtr_link, phase, 214);
AT(rtr_link, version, 215);
AT(rtr_link, floor, 216);
AT(rtr_link, agreed, 217);
AT(rtr_link, fell, 218);
AT(rtr_link, silent, 219);
AT(rtr_link, changes, 220);
AT(rtr_link, resync, 221);
AT(rtr_link, answered, 222);
AT(rtr_link, noted, 223);
AT(rtr_link, has_data, 224);
AT(rtr_link, holding, 225);
AT(rtr_link, since, 226);
AT(rtr_link, shows, 227);
AT(rtr_link, second, 228);
AT(rtr_link, opened, 229);
AT(rtr_link, closed, 230);

_Static_assert(sizeof(struct rtr_todo) == 40, "rtr_todo");
AT(rtr_todo, wakes, 0);
AT(rtr_todo, position, 8);
AT(rtr_todo, room, 16);
AT(rtr_todo, offset, 24);
AT(rtr_todo, code, 32);
AT(rtr_todo, kind, 34);
AT(rtr_todo, cause, 35);
AT(rtr_todo, status, 36);
AT(rtr_todo, detail, 37);
AT(rtr_todo, drops, 38);
AT(rtr_todo, reports, 39);

_Static_assert(sizeof(struct rtr_link_state) == 48, "rtr_link_state");
AT(rtr_link_state, wakes, 0);
AT(rtr_link_state, filled, 8);
AT(rtr_link_state, unsent, 16);
AT(rtr_link_state, shown, 24);
AT(rtr_link_state, answer, 32);
AT(rtr_link_state, has_data, 40);
AT(rtr_link_state, second, 41);
AT(rtr_link_state, answers, 42);
AT(rtr_link_state, since, 43);

_Static_assert(sizeof(struct rtr_group_settings) == 8, "rtr_group_settings");
AT(rtr_group_settings, patience, 0);
AT(rtr_group_settings, empty_is_data, 4);

_Static_assert(sizeof(struct rtr_group) == 56, "rtr_group");
AT(rtr_group, settings, 0);
AT(rtr_group, count, 8);
AT(rtr_group, runs, 16);
AT(rtr_group, due, 24);
AT(rtr_group, has, 32);
AT(rtr_group, current, 48);

_Static_assert(sizeof(struct rtr_group_answer) == 32, "rtr_group_answer");
AT(rtr_group_answer, member, 0);
AT(rtr_group_answer, stop, 8);
AT(rtr_group_answer, start, 16);
AT(rtr_group_answer, shown, 24);
AT(rtr_group_answer, stops, 25);
AT(rtr_group_answer, starts, 26);

_Static_assert(sizeof(struct rtr_present) == 8, "rtr_present");
AT(rtr_present, serial, 0);
AT(rtr_present, session, 4);
AT(rtr_present, has, 6);

_Static_assert(sizeof(struct rtr_cache_settings) == 16, "rtr_cache_settings");
AT(rtr_cache_settings, first_limit, 0);
AT(rtr_cache_settings, idle_limit, 4);
AT(rtr_cache_settings, pause, 8);
AT(rtr_cache_settings, refuses, 12);

_Static_assert(sizeof(struct rtr_cache) == 48, "rtr_cache");
AT(rtr_cache, settings, 0);
AT(rtr_cache, notify_from, 16);
AT(rtr_cache, due, 24);
AT(rtr_cache, serial, 32);
AT(rtr_cache, session, 36);
AT(rtr_cache, version, 38);
AT(rtr_cache, live, 39);
AT(rtr_cache, asked, 40);
AT(rtr_cache, told, 41);
AT(rtr_cache, reset, 42);

_Static_assert(sizeof(struct rtr_serving) == 32, "rtr_serving");
AT(rtr_serving, taken, 0);
AT(rtr_serving, wanted, 8);
AT(rtr_serving, serial, 16);
AT(rtr_serving, session, 20);
AT(rtr_serving, code, 22);
AT(rtr_serving, kind, 24);
AT(rtr_serving, version, 25);
AT(rtr_serving, reason, 26);
AT(rtr_serving, status, 27);
AT(rtr_serving, detail, 28);
AT(rtr_serving, reports, 29);

_Static_assert(sizeof(struct rtr_server_settings) == 64, "rtr_server_settings");
AT(rtr_server_settings, cache, 0);
AT(rtr_server_settings, keep, 16);
AT(rtr_server_settings, keep_bytes, 24);
AT(rtr_server_settings, unit_limit, 32);
AT(rtr_server_settings, write_limit, 36);
AT(rtr_server_settings, response_limit, 40);
AT(rtr_server_settings, report_limit, 44);
AT(rtr_server_settings, most_connections, 48);
AT(rtr_server_settings, most_refused, 52);
AT(rtr_server_settings, most_behind, 56);

_Static_assert(sizeof(struct rtr_door) == 16, "rtr_door");
AT(rtr_door, most_connections, 0);
AT(rtr_door, most_refused, 4);
AT(rtr_door, served, 8);
AT(rtr_door, refused, 12);

_Static_assert(sizeof(struct rtr_connection) == 120, "rtr_connection");
AT(rtr_connection, settings, 0);
AT(rtr_connection, begun, 64);
AT(rtr_connection, taken, 72);
AT(rtr_connection, until, 80);
AT(rtr_connection, number, 88);
AT(rtr_connection, filled, 96);
AT(rtr_connection, unsent, 104);
AT(rtr_connection, state, 112);
AT(rtr_connection, fresh, 113);
AT(rtr_connection, closed, 114);

_Static_assert(sizeof(struct rtr_stores) == 32, "rtr_stores");
AT(rtr_stores, served, 0);
AT(rtr_stores, taken, 8);
AT(rtr_stores, mark, 16);
AT(rtr_stores, session, 20);
AT(rtr_stores, serves, 22);
AT(rtr_stores, waits, 23);
AT(rtr_stores, second, 24);
AT(rtr_stores, unsaved, 25);

_Static_assert(sizeof(struct rtr_history_limits) == 16, "rtr_history_limits");
AT(rtr_history_limits, time, 0);
AT(rtr_history_limits, bytes, 8);

_Static_assert(sizeof(struct rtr_stores_answer) == 32, "rtr_stores_answer");
AT(rtr_stores_answer, length, 0);
AT(rtr_stores_answer, offset, 8);
AT(rtr_stores_answer, wanted, 16);
AT(rtr_stores_answer, status, 24);
AT(rtr_stores_answer, room, 25);
AT(rtr_stores_answer, flaw, 26);
AT(rtr_stores_answer, detail, 27);

_Static_assert(sizeof(struct rtr_stores_state) == 32, "rtr_stores_state");
AT(rtr_stores_state, offset, 0);
AT(rtr_stores_state, length, 8);
AT(rtr_stores_state, taken, 16);
AT(rtr_stores_state, serves, 24);
AT(rtr_stores_state, waits, 25);
AT(rtr_stores_state, second, 26);

_Static_assert(sizeof(struct rtr_store_head) == 24, "rtr_store_head");
AT(rtr_store_head, bytes, 0);

#endif

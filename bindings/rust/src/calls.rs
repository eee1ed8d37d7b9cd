//! The functions of the archive, with slices for pointers and lengths, and what they write to
//! pointers as results. `generate` made this file of the crate `rtr_c`: don't edit it.
//!
//! All are safe to call with any arguments: a slice is never null and of its length, what is
//! borrowed mutably overlaps nothing, and the functions keep no pointer.
#![allow(dead_code, clippy::too_many_arguments)]

use crate::abi;

#[inline]
pub(crate) fn normalise_slice(input: &[u8], output: &mut [u8], limit: u64) -> abi::Answer {
    let mut answer = abi::Answer::default();
    // SAFETY: as at the head of this file.
    unsafe { abi::rtr_normalise_slice_nonnull(
        input.as_ptr(), input.len(),
        output.as_mut_ptr(), output.len(),
        limit,
        &mut answer,
    ) };
    answer
}

#[inline]
pub(crate) fn normalise_for_slice(
    input: &[u8],
    output: &mut [u8],
    limit: u64,
    version: u8,
) -> abi::Answer {
    let mut answer = abi::Answer::default();
    // SAFETY: as at the head of this file.
    unsafe { abi::rtr_normalise_for_slice_nonnull(
        input.as_ptr(), input.len(),
        output.as_mut_ptr(), output.len(),
        limit,
        version,
        &mut answer,
    ) };
    answer
}

#[inline]
pub(crate) fn unit_size(input: &[u8]) -> (usize, u8, u8) {
    let mut size = 0;
    let mut detail = 0;
    // SAFETY: as at the head of this file.
    let result = unsafe { abi::rtr_unit_size_nonnull(
        input.as_ptr(), input.len(),
        &mut size,
        &mut detail,
    ) };
    (size, detail, result)
}

#[inline]
pub(crate) fn next(input: &[u8]) -> (abi::Unit, u8) {
    let mut unit = abi::Unit::default();
    // SAFETY: as at the head of this file.
    let result = unsafe { abi::rtr_next_nonnull(input.as_ptr(), input.len(), &mut unit) };
    (unit, result)
}

#[inline]
pub(crate) fn next_many(input: &[u8], units: &mut [abi::Unit]) -> (usize, usize, u8) {
    let mut count = 0;
    let mut taken = 0;
    // SAFETY: as at the head of this file.
    let result = unsafe { abi::rtr_next_many_nonnull(
        input.as_ptr(), input.len(),
        units.as_mut_ptr(), units.len(),
        &mut count,
        &mut taken,
    ) };
    (count, taken, result)
}

#[inline]
pub(crate) fn line(input: &[u8], offset: u64, output: &mut [u8]) -> abi::Line {
    let mut answer = abi::Line::default();
    // SAFETY: as at the head of this file.
    unsafe { abi::rtr_line_nonnull(
        input.as_ptr(), input.len(),
        offset,
        output.as_mut_ptr(), output.len(),
        &mut answer,
    ) };
    answer
}

#[inline]
pub(crate) fn json(input: &[u8], offset: u64, output: &mut [u8]) -> abi::Line {
    let mut answer = abi::Line::default();
    // SAFETY: as at the head of this file.
    unsafe { abi::rtr_json_nonnull(
        input.as_ptr(), input.len(),
        offset,
        output.as_mut_ptr(), output.len(),
        &mut answer,
    ) };
    answer
}

#[inline]
pub(crate) fn change_line(input: &[u8], output: &mut [u8]) -> abi::Line {
    let mut answer = abi::Line::default();
    // SAFETY: as at the head of this file.
    unsafe { abi::rtr_change_line_nonnull(
        input.as_ptr(), input.len(),
        output.as_mut_ptr(), output.len(),
        &mut answer,
    ) };
    answer
}

#[inline]
pub(crate) fn change_json(input: &[u8], output: &mut [u8]) -> abi::Line {
    let mut answer = abi::Line::default();
    // SAFETY: as at the head of this file.
    unsafe { abi::rtr_change_json_nonnull(
        input.as_ptr(), input.len(),
        output.as_mut_ptr(), output.len(),
        &mut answer,
    ) };
    answer
}

#[inline]
pub(crate) fn text(status: u8, detail: u8, output: &mut [u8]) -> (usize, u8) {
    let mut text_length = 0;
    // SAFETY: as at the head of this file.
    let result = unsafe { abi::rtr_text_nonnull(
        status,
        detail,
        output.as_mut_ptr(), output.len(),
        &mut text_length,
    ) };
    (text_length, result)
}

#[inline]
pub(crate) fn text_at(status: u8, detail: u8, offset: u64, output: &mut [u8]) -> (usize, u8) {
    let mut text_length = 0;
    // SAFETY: as at the head of this file.
    let result = unsafe { abi::rtr_text_at_nonnull(
        status,
        detail,
        offset,
        output.as_mut_ptr(), output.len(),
        &mut text_length,
    ) };
    (text_length, result)
}

#[inline]
pub(crate) fn report_text(code: u16, reported: &[u8], output: &mut [u8]) -> (usize, u8) {
    let mut text_length = 0;
    // SAFETY: as at the head of this file.
    let result = unsafe { abi::rtr_report_text_nonnull(
        code,
        reported.as_ptr(), reported.len(),
        output.as_mut_ptr(), output.len(),
        &mut text_length,
    ) };
    (text_length, result)
}

#[inline]
pub(crate) fn name(named: u8, number: u16, output: &mut [u8]) -> (usize, u8) {
    let mut text_length = 0;
    // SAFETY: as at the head of this file.
    let result = unsafe { abi::rtr_name_nonnull(
        named,
        number,
        output.as_mut_ptr(), output.len(),
        &mut text_length,
    ) };
    (text_length, result)
}

#[inline]
pub(crate) fn provider(unit: &abi::Unit, input: &[u8], index: usize) -> (u32, bool) {
    let mut provider = 0;
    // SAFETY: as at the head of this file.
    let result = unsafe { abi::rtr_provider_nonnull(
        unit,
        input.as_ptr(), input.len(),
        index,
        &mut provider,
    ) };
    (provider, result)
}

#[inline]
pub(crate) fn error_code(status: u8, input: &[u8]) -> (u16, bool) {
    let mut code = 0;
    // SAFETY: as at the head of this file.
    let result = unsafe { abi::rtr_error_code_nonnull(
        status,
        input.as_ptr(), input.len(),
        &mut code,
    ) };
    (code, result)
}

#[inline]
pub(crate) fn serial_order(left: u32, right: u32) -> u8 {
    // SAFETY: as at the head of this file.
    unsafe { abi::rtr_serial_order(left, right) }
}

#[inline]
pub(crate) fn version_has(version: u8, kind: u8) -> bool {
    // SAFETY: as at the head of this file.
    unsafe { abi::rtr_version_has(version, kind) }
}

#[inline]
pub(crate) fn times_rule(refresh: u32, retry: u32, expire: u32) -> u8 {
    // SAFETY: as at the head of this file.
    unsafe { abi::rtr_times_rule(refresh, retry, expire) }
}

#[inline]
pub(crate) fn end_rule(version: u8, refresh: u32, retry: u32, expire: u32) -> u8 {
    // SAFETY: as at the head of this file.
    unsafe { abi::rtr_end_rule(version, refresh, retry, expire) }
}

#[inline]
pub(crate) fn wire_version() -> u32 {
    // SAFETY: as at the head of this file.
    unsafe { abi::rtr_wire_version() }
}

#[inline]
pub(crate) fn write_unit(unit: &abi::Unit, input: &[u8], output: &mut [u8]) -> (usize, u8) {
    let mut written = 0;
    // SAFETY: as at the head of this file.
    let result = unsafe { abi::rtr_write_unit_nonnull(
        unit,
        input.as_ptr(), input.len(),
        output.as_mut_ptr(), output.len(),
        &mut written,
    ) };
    (written, result)
}

#[inline]
pub(crate) fn same_meaning(left: &[u8], right: &[u8], limit: u64) -> abi::Comparison {
    let mut answer = abi::Comparison::default();
    // SAFETY: as at the head of this file.
    unsafe { abi::rtr_same_meaning_nonnull(
        left.as_ptr(), left.len(),
        right.as_ptr(), right.len(),
        limit,
        &mut answer,
    ) };
    answer
}

#[inline]
pub(crate) fn delta(old_data: &[u8], new_data: &[u8], output: &mut [u8]) -> abi::DataAnswer {
    let mut answer = abi::DataAnswer::default();
    // SAFETY: as at the head of this file.
    unsafe { abi::rtr_delta_nonnull(
        old_data.as_ptr(), old_data.len(),
        new_data.as_ptr(), new_data.len(),
        output.as_mut_ptr(), output.len(),
        &mut answer,
    ) };
    answer
}

#[inline]
pub(crate) fn changes_between(
    old_data: &[u8],
    new_data: &[u8],
    output: &mut [u8],
) -> abi::DataAnswer {
    let mut answer = abi::DataAnswer::default();
    // SAFETY: as at the head of this file.
    unsafe { abi::rtr_changes_between_nonnull(
        old_data.as_ptr(), old_data.len(),
        new_data.as_ptr(), new_data.len(),
        output.as_mut_ptr(), output.len(),
        &mut answer,
    ) };
    answer
}

#[inline]
pub(crate) fn apply(data: &[u8], changes: &[u8], output: &mut [u8]) -> abi::DataAnswer {
    let mut answer = abi::DataAnswer::default();
    // SAFETY: as at the head of this file.
    unsafe { abi::rtr_apply_nonnull(
        data.as_ptr(), data.len(),
        changes.as_ptr(), changes.len(),
        output.as_mut_ptr(), output.len(),
        &mut answer,
    ) };
    answer
}

#[inline]
pub(crate) fn apply_in_order(
    data: &[u8],
    changes: &[u8],
    index: &mut [usize],
    output: &mut [u8],
) -> abi::DataAnswer {
    let mut answer = abi::DataAnswer::default();
    // SAFETY: as at the head of this file.
    unsafe { abi::rtr_apply_in_order_nonnull(
        data.as_ptr(), data.len(),
        changes.as_ptr(), changes.len(),
        index.as_mut_ptr(), index.len(),
        output.as_mut_ptr(), output.len(),
        &mut answer,
    ) };
    answer
}

#[inline]
pub(crate) fn order(input: &[u8], index: &mut [usize], output: &mut [u8]) -> abi::DataAnswer {
    let mut answer = abi::DataAnswer::default();
    // SAFETY: as at the head of this file.
    unsafe { abi::rtr_order_nonnull(
        input.as_ptr(), input.len(),
        index.as_mut_ptr(), index.len(),
        output.as_mut_ptr(), output.len(),
        &mut answer,
    ) };
    answer
}

#[inline]
pub(crate) fn load(
    input: &[u8],
    index: &mut [usize],
    work: &mut [u8],
    output: &mut [u8],
) -> abi::Loaded {
    let mut loaded = abi::Loaded::default();
    // SAFETY: as at the head of this file.
    unsafe { abi::rtr_load_nonnull(
        input.as_ptr(), input.len(),
        index.as_mut_ptr(), index.len(),
        work.as_mut_ptr(), work.len(),
        output.as_mut_ptr(), output.len(),
        &mut loaded,
    ) };
    loaded
}

#[inline]
pub(crate) fn end_offset(data: &[u8]) -> usize {
    // SAFETY: as at the head of this file.
    unsafe { abi::rtr_end_offset_nonnull(data.as_ptr(), data.len()) }
}

#[inline]
pub(crate) fn check_data(data: &[u8]) -> (abi::Lookup, abi::DataAnswer) {
    let mut lookup = abi::Lookup::default();
    let mut answer = abi::DataAnswer::default();
    // SAFETY: as at the head of this file.
    unsafe { abi::rtr_check_data_nonnull(data.as_ptr(), data.len(), &mut lookup, &mut answer) };
    (lookup, answer)
}

#[inline]
pub(crate) fn validate(data: &[u8], lookup: &abi::Lookup, route: &abi::Route) -> u8 {
    // SAFETY: as at the head of this file.
    unsafe { abi::rtr_validate_nonnull(data.as_ptr(), data.len(), lookup, route) }
}

#[inline]
pub(crate) fn validate_many(
    data: &[u8],
    lookup: &abi::Lookup,
    routes: &[abi::Route],
    validities: &mut [u8],
) -> usize {
    // SAFETY: as at the head of this file.
    unsafe { abi::rtr_validate_many_nonnull(
        data.as_ptr(), data.len(),
        lookup,
        routes.as_ptr(), routes.len(),
        validities.as_mut_ptr(), validities.len(),
    ) }
}

#[inline]
pub(crate) fn covering(
    data: &[u8],
    lookup: &abi::Lookup,
    route: &abi::Route,
    from: usize,
) -> (abi::Covering, u8) {
    let mut covering = abi::Covering::default();
    // SAFETY: as at the head of this file.
    let result = unsafe { abi::rtr_covering_nonnull(
        data.as_ptr(), data.len(),
        lookup,
        route,
        from,
        &mut covering,
    ) };
    (covering, result)
}

#[inline]
pub(crate) fn check_name(input: &[u8], output: &mut [u8]) -> abi::Naming {
    let mut answer = abi::Naming::default();
    // SAFETY: as at the head of this file.
    unsafe { abi::rtr_check_name_nonnull(
        input.as_ptr(), input.len(),
        output.as_mut_ptr(), output.len(),
        &mut answer,
    ) };
    answer
}

#[inline]
pub(crate) fn check_unit(check: &mut abi::Check, input: &[u8], was_there: bool) -> abi::Checked {
    let mut answer = abi::Checked::default();
    // SAFETY: as at the head of this file.
    unsafe { abi::rtr_check_unit_nonnull(
        check,
        input.as_ptr(), input.len(),
        was_there,
        &mut answer,
    ) };
    answer
}

#[inline]
pub(crate) fn check_end(check: &abi::Check) -> abi::Finding {
    let mut finding = abi::Finding::default();
    // SAFETY: as at the head of this file.
    unsafe { abi::rtr_check_end(check, &mut finding) };
    finding
}

#[inline]
pub(crate) fn finding_line(finding: &abi::Finding, offset: u64, output: &mut [u8]) -> usize {
    // SAFETY: as at the head of this file.
    unsafe { abi::rtr_finding_line_nonnull(finding, offset, output.as_mut_ptr(), output.len()) }
}

#[inline]
pub(crate) fn settings_usual(settings: &mut abi::Settings, highest: u8) {
    // SAFETY: as at the head of this file.
    unsafe { abi::rtr_settings_usual(settings, highest) };
}

#[inline]
pub(crate) fn router_init(router: &mut abi::Router, settings: &abi::Settings) {
    // SAFETY: as at the head of this file.
    unsafe { abi::rtr_router_init(router, settings) };
}

#[inline]
pub(crate) fn router_again(router: &mut abi::Router) {
    // SAFETY: as at the head of this file.
    unsafe { abi::rtr_router_again(router) };
}

#[inline]
pub(crate) fn router_has_data(router: &abi::Router, now: u64) -> bool {
    // SAFETY: as at the head of this file.
    unsafe { abi::rtr_router_has_data(router, now) }
}

#[inline]
pub(crate) fn router_tick(router: &mut abi::Router, now: u64) -> abi::Action {
    let mut action = abi::Action::default();
    // SAFETY: as at the head of this file.
    unsafe { abi::rtr_router_tick(router, now, &mut action) };
    action
}

#[inline]
pub(crate) fn router_asked(router: &mut abi::Router, now: u64) -> abi::Action {
    let mut action = abi::Action::default();
    // SAFETY: as at the head of this file.
    unsafe { abi::rtr_router_asked(router, now, &mut action) };
    action
}

#[inline]
pub(crate) fn router_connected(router: &mut abi::Router, now: u64) -> abi::Action {
    let mut action = abi::Action::default();
    // SAFETY: as at the head of this file.
    unsafe { abi::rtr_router_connected(router, now, &mut action) };
    action
}

#[inline]
pub(crate) fn router_lost(router: &mut abi::Router, now: u64) -> abi::Action {
    let mut action = abi::Action::default();
    // SAFETY: as at the head of this file.
    unsafe { abi::rtr_router_lost(router, now, &mut action) };
    action
}

#[inline]
pub(crate) fn router_applied(router: &mut abi::Router, now: u64) -> abi::Action {
    let mut action = abi::Action::default();
    // SAFETY: as at the head of this file.
    unsafe { abi::rtr_router_applied(router, now, &mut action) };
    action
}

#[inline]
pub(crate) fn router_not_applied(router: &mut abi::Router, now: u64, status: u8) -> abi::Action {
    let mut action = abi::Action::default();
    // SAFETY: as at the head of this file.
    unsafe { abi::rtr_router_not_applied(router, now, status, &mut action) };
    action
}

#[inline]
pub(crate) fn router_wakes(router: &abi::Router) -> u64 {
    // SAFETY: as at the head of this file.
    unsafe { abi::rtr_router_wakes(router) }
}

#[inline]
pub(crate) fn router_read(
    router: &mut abi::Router,
    now: u64,
    input: &[u8],
    ended: bool,
) -> abi::Action {
    let mut action = abi::Action::default();
    // SAFETY: as at the head of this file.
    unsafe { abi::rtr_router_read_nonnull(
        router,
        now,
        input.as_ptr(), input.len(),
        ended,
        &mut action,
    ) };
    action
}

#[inline]
pub(crate) fn router_query(action: &abi::Action, output: &mut [u8]) -> usize {
    // SAFETY: as at the head of this file.
    unsafe { abi::rtr_router_query_nonnull(action, output.as_mut_ptr(), output.len()) }
}

#[inline]
pub(crate) fn router_report(
    action: &abi::Action,
    input: &[u8],
    output: &mut [u8],
) -> (usize, bool) {
    let mut written = 0;
    // SAFETY: as at the head of this file.
    let result = unsafe { abi::rtr_router_report_nonnull(
        action,
        input.as_ptr(), input.len(),
        output.as_mut_ptr(), output.len(),
        &mut written,
    ) };
    (written, result)
}

#[inline]
pub(crate) fn link_init(link: &mut abi::Link, settings: &abi::Settings) {
    // SAFETY: as at the head of this file.
    unsafe { abi::rtr_link_init(link, settings) };
}

#[inline]
pub(crate) fn link_again(link: &mut abi::Link) -> u8 {
    // SAFETY: as at the head of this file.
    unsafe { abi::rtr_link_again(link) }
}

#[inline]
pub(crate) fn link_opened(link: &mut abi::Link) -> u8 {
    // SAFETY: as at the head of this file.
    unsafe { abi::rtr_link_opened(link) }
}

#[inline]
pub(crate) fn link_lost(link: &mut abi::Link) -> u8 {
    // SAFETY: as at the head of this file.
    unsafe { abi::rtr_link_lost(link) }
}

#[inline]
pub(crate) fn link_received(link: &mut abi::Link, input: &[u8], size: usize) -> u8 {
    // SAFETY: as at the head of this file.
    unsafe { abi::rtr_link_received_nonnull(link, input.as_ptr(), input.len(), size) }
}

#[inline]
pub(crate) fn link_sent(link: &mut abi::Link, output: &mut [u8], size: usize) -> u8 {
    // SAFETY: as at the head of this file.
    unsafe { abi::rtr_link_sent_nonnull(link, output.as_mut_ptr(), output.len(), size) }
}

#[inline]
pub(crate) fn link_next(
    link: &mut abi::Link,
    now: u64,
    input: &mut [u8],
    first: &mut [u8],
    second: &mut [u8],
    index: &mut [usize],
    output: &mut [u8],
) -> (abi::Todo, u8) {
    let mut todo = abi::Todo::default();
    // SAFETY: as at the head of this file.
    let result = unsafe { abi::rtr_link_next_nonnull(
        link,
        now,
        input.as_mut_ptr(), input.len(),
        first.as_mut_ptr(), first.len(),
        second.as_mut_ptr(), second.len(),
        index.as_mut_ptr(), index.len(),
        output.as_mut_ptr(), output.len(),
        &mut todo,
    ) };
    (todo, result)
}

#[inline]
pub(crate) fn link_ask_now(
    link: &mut abi::Link,
    now: u64,
    input: &mut [u8],
    output: &mut [u8],
) -> (abi::Todo, u8) {
    let mut todo = abi::Todo::default();
    // SAFETY: as at the head of this file.
    let result = unsafe { abi::rtr_link_ask_now_nonnull(
        link,
        now,
        input.as_mut_ptr(), input.len(),
        output.as_mut_ptr(), output.len(),
        &mut todo,
    ) };
    (todo, result)
}

#[inline]
pub(crate) fn link_give_up(
    link: &mut abi::Link,
    now: u64,
    input: &mut [u8],
    output: &mut [u8],
) -> (abi::Todo, u8) {
    let mut todo = abi::Todo::default();
    // SAFETY: as at the head of this file.
    let result = unsafe { abi::rtr_link_give_up_nonnull(
        link,
        now,
        input.as_mut_ptr(), input.len(),
        output.as_mut_ptr(), output.len(),
        &mut todo,
    ) };
    (todo, result)
}

#[inline]
pub(crate) fn todo_failure(todo: &abi::Todo, gave_up: bool) -> u8 {
    // SAFETY: as at the head of this file.
    unsafe { abi::rtr_todo_failure(todo, gave_up) }
}

#[inline]
pub(crate) fn link_state(
    link: &abi::Link,
    now: u64,
    input: usize,
    first: usize,
    second: usize,
    output: usize,
) -> (abi::LinkState, u8) {
    let mut state = abi::LinkState::default();
    // SAFETY: as at the head of this file.
    let result = unsafe { abi::rtr_link_state_of(
        link,
        now,
        input,
        first,
        second,
        output,
        &mut state,
    ) };
    (state, result)
}

#[inline]
pub(crate) fn group_usual(settings: &mut abi::GroupSettings) {
    // SAFETY: as at the head of this file.
    unsafe { abi::rtr_group_usual(settings) };
}

#[inline]
pub(crate) fn group_init(
    group: &mut abi::Group,
    settings: &abi::GroupSettings,
    count: usize,
    now: u64,
) -> u8 {
    // SAFETY: as at the head of this file.
    unsafe { abi::rtr_group_init(group, settings, count, now) }
}

#[inline]
pub(crate) fn group_best(group: &abi::Group) -> (usize, bool) {
    let mut member = 0;
    // SAFETY: as at the head of this file.
    let result = unsafe { abi::rtr_group_best(group, &mut member) };
    (member, result)
}

#[inline]
pub(crate) fn group_counts(group: &abi::Group, payloads: usize) -> bool {
    // SAFETY: as at the head of this file.
    unsafe { abi::rtr_group_counts(group, payloads) }
}

#[inline]
pub(crate) fn group_wakes(group: &abi::Group) -> u64 {
    // SAFETY: as at the head of this file.
    unsafe { abi::rtr_group_wakes(group) }
}

#[inline]
pub(crate) fn group_tick(group: &mut abi::Group, now: u64) -> abi::GroupAnswer {
    let mut answer = abi::GroupAnswer::default();
    // SAFETY: as at the head of this file.
    unsafe { abi::rtr_group_tick(group, now, &mut answer) };
    answer
}

#[inline]
pub(crate) fn group_tell(
    group: &mut abi::Group,
    now: u64,
    member: usize,
    todo: &abi::Todo,
    payloads: usize,
) -> (abi::GroupAnswer, u8) {
    let mut answer = abi::GroupAnswer::default();
    // SAFETY: as at the head of this file.
    let result = unsafe { abi::rtr_group_tell(group, now, member, todo, payloads, &mut answer) };
    (answer, result)
}

#[inline]
pub(crate) fn group_shows(
    group: &mut abi::Group,
    now: u64,
    member: usize,
    payloads: usize,
) -> abi::GroupAnswer {
    let mut answer = abi::GroupAnswer::default();
    // SAFETY: as at the head of this file.
    unsafe { abi::rtr_group_shows(group, now, member, payloads, &mut answer) };
    answer
}

#[inline]
pub(crate) fn group_drops(group: &mut abi::Group, now: u64, member: usize) -> abi::GroupAnswer {
    let mut answer = abi::GroupAnswer::default();
    // SAFETY: as at the head of this file.
    unsafe { abi::rtr_group_drops(group, now, member, &mut answer) };
    answer
}

#[inline]
pub(crate) fn group_fails(group: &mut abi::Group, now: u64, member: usize) -> abi::GroupAnswer {
    let mut answer = abi::GroupAnswer::default();
    // SAFETY: as at the head of this file.
    unsafe { abi::rtr_group_fails(group, now, member, &mut answer) };
    answer
}

#[inline]
pub(crate) fn cache_settings_usual(settings: &mut abi::CacheSettings) {
    // SAFETY: as at the head of this file.
    unsafe { abi::rtr_cache_settings_usual(settings) };
}

#[inline]
pub(crate) fn cache_init(cache: &mut abi::Cache, now: u64, settings: &abi::CacheSettings) {
    // SAFETY: as at the head of this file.
    unsafe { abi::rtr_cache_init(cache, now, settings) };
}

#[inline]
pub(crate) fn cache_tick(cache: &mut abi::Cache, now: u64, present: &abi::Present) -> abi::Serving {
    let mut serving = abi::Serving::default();
    // SAFETY: as at the head of this file.
    unsafe { abi::rtr_cache_tick(cache, now, present, &mut serving) };
    serving
}

#[inline]
pub(crate) fn cache_full(cache: &mut abi::Cache, now: u64, present: &abi::Present) -> abi::Serving {
    let mut serving = abi::Serving::default();
    // SAFETY: as at the head of this file.
    unsafe { abi::rtr_cache_full(cache, now, present, &mut serving) };
    serving
}

#[inline]
pub(crate) fn cache_lost(cache: &mut abi::Cache, now: u64, present: &abi::Present) -> abi::Serving {
    let mut serving = abi::Serving::default();
    // SAFETY: as at the head of this file.
    unsafe { abi::rtr_cache_lost(cache, now, present, &mut serving) };
    serving
}

#[inline]
pub(crate) fn cache_wakes(cache: &abi::Cache, present: &abi::Present) -> u64 {
    // SAFETY: as at the head of this file.
    unsafe { abi::rtr_cache_wakes(cache, present) }
}

#[inline]
pub(crate) fn cache_read(
    cache: &mut abi::Cache,
    now: u64,
    present: &abi::Present,
    kept: &[u32],
    input: &[u8],
    ended: bool,
) -> abi::Serving {
    let mut serving = abi::Serving::default();
    // SAFETY: as at the head of this file.
    unsafe { abi::rtr_cache_read_nonnull(
        cache,
        now,
        present,
        kept.as_ptr(), kept.len(),
        input.as_ptr(), input.len(),
        ended,
        &mut serving,
    ) };
    serving
}

#[inline]
pub(crate) fn cache_unit(serving: &abi::Serving, output: &mut [u8]) -> usize {
    // SAFETY: as at the head of this file.
    unsafe { abi::rtr_cache_unit_nonnull(serving, output.as_mut_ptr(), output.len()) }
}

#[inline]
pub(crate) fn cache_report(
    serving: &abi::Serving,
    input: &[u8],
    output: &mut [u8],
) -> (usize, bool) {
    let mut written = 0;
    // SAFETY: as at the head of this file.
    let result = unsafe { abi::rtr_cache_report_nonnull(
        serving,
        input.as_ptr(), input.len(),
        output.as_mut_ptr(), output.len(),
        &mut written,
    ) };
    (written, result)
}

#[inline]
pub(crate) fn server_settings_usual(settings: &mut abi::ServerSettings) {
    // SAFETY: as at the head of this file.
    unsafe { abi::rtr_server_settings_usual(settings) };
}

#[inline]
pub(crate) fn server_keeps(
    settings: &abi::ServerSettings,
    kept_bytes: usize,
    length: usize,
) -> bool {
    // SAFETY: as at the head of this file.
    unsafe { abi::rtr_server_keeps(settings, kept_bytes, length) }
}

#[inline]
pub(crate) fn door_init(door: &mut abi::Door, settings: &abi::ServerSettings) {
    // SAFETY: as at the head of this file.
    unsafe { abi::rtr_door_init(door, settings) };
}

#[inline]
pub(crate) fn door_next(door: &abi::Door, spare: bool) -> u8 {
    // SAFETY: as at the head of this file.
    unsafe { abi::rtr_door_next(door, spare) }
}

#[inline]
pub(crate) fn door_enter(door: &mut abi::Door, spare: bool) -> u8 {
    // SAFETY: as at the head of this file.
    unsafe { abi::rtr_door_enter(door, spare) }
}

#[inline]
pub(crate) fn door_leave(door: &mut abi::Door, entry: u8) -> bool {
    // SAFETY: as at the head of this file.
    unsafe { abi::rtr_door_leave(door, entry) }
}

#[inline]
pub(crate) fn connection_init(
    connection: &mut abi::Connection,
    now: u64,
    settings: &abi::ServerSettings,
) {
    // SAFETY: as at the head of this file.
    unsafe { abi::rtr_connection_init(connection, now, settings) };
}

#[inline]
pub(crate) fn connection_received(connection: &mut abi::Connection, now: u64, size: usize) {
    // SAFETY: as at the head of this file.
    unsafe { abi::rtr_connection_received(connection, now, size) };
}

#[inline]
pub(crate) fn connection_closed(connection: &mut abi::Connection) {
    // SAFETY: as at the head of this file.
    unsafe { abi::rtr_connection_closed(connection) };
}

#[inline]
pub(crate) fn connection_broke(connection: &mut abi::Connection) {
    // SAFETY: as at the head of this file.
    unsafe { abi::rtr_connection_broke(connection) };
}

#[inline]
pub(crate) fn connection_reads(connection: &abi::Connection) -> bool {
    // SAFETY: as at the head of this file.
    unsafe { abi::rtr_connection_reads(connection) }
}

#[inline]
pub(crate) fn connection_heard(connection: &mut abi::Connection, now: u64, size: usize) {
    // SAFETY: as at the head of this file.
    unsafe { abi::rtr_connection_heard(connection, now, size) };
}

#[inline]
pub(crate) fn connection_answers(
    connection: &mut abi::Connection,
    now: u64,
    size: usize,
    number: u64,
) -> bool {
    // SAFETY: as at the head of this file.
    unsafe { abi::rtr_connection_answers(connection, now, size, number) }
}

#[inline]
pub(crate) fn connection_ends(connection: &mut abi::Connection, now: u64, size: usize) -> bool {
    // SAFETY: as at the head of this file.
    unsafe { abi::rtr_connection_ends(connection, now, size) }
}

#[inline]
pub(crate) fn connection_sent(connection: &mut abi::Connection, now: u64, size: usize) -> bool {
    // SAFETY: as at the head of this file.
    unsafe { abi::rtr_connection_sent(connection, now, size) }
}

#[inline]
pub(crate) fn connection_next(
    connection: &abi::Connection,
    now: u64,
    cache: &abi::Cache,
    present: &abi::Present,
    number: u64,
) -> (u8, u8) {
    let mut cut = 0;
    // SAFETY: as at the head of this file.
    let result = unsafe { abi::rtr_connection_next(
        connection,
        now,
        cache,
        present,
        number,
        &mut cut,
    ) };
    (cut, result)
}

#[inline]
pub(crate) fn connection_wakes(
    connection: &abi::Connection,
    cache: &abi::Cache,
    present: &abi::Present,
) -> u64 {
    // SAFETY: as at the head of this file.
    unsafe { abi::rtr_connection_wakes(connection, cache, present) }
}

#[inline]
pub(crate) fn stores_new(stores: &mut abi::Stores) {
    // SAFETY: as at the head of this file.
    unsafe { abi::rtr_stores_new(stores) };
}

#[inline]
pub(crate) fn stores_unsaved(stores: &mut abi::Stores, session: u16) {
    // SAFETY: as at the head of this file.
    unsafe { abi::rtr_stores_unsaved(stores, session) };
}

#[inline]
pub(crate) fn stores_start(
    stores: &mut abi::Stores,
    size: usize,
    first: &[u8],
    index: &mut [usize],
    buffer: &mut [u8],
) -> abi::StoresAnswer {
    let mut answer = abi::StoresAnswer::default();
    // SAFETY: as at the head of this file.
    unsafe { abi::rtr_stores_start_nonnull(
        stores,
        size,
        first.as_ptr(), first.len(),
        index.as_mut_ptr(), index.len(),
        buffer.as_mut_ptr(), buffer.len(),
        &mut answer,
    ) };
    answer
}

#[inline]
pub(crate) fn stores_take(
    stores: &mut abi::Stores,
    new: &[u8],
    now: u64,
    limits: &abi::HistoryLimits,
    buffer: &mut [u8],
    spare: &mut [u8],
    first: &mut [u8],
    second: &mut [u8],
) -> abi::StoresAnswer {
    let mut answer = abi::StoresAnswer::default();
    // SAFETY: as at the head of this file.
    unsafe { abi::rtr_stores_take_nonnull(
        stores,
        new.as_ptr(), new.len(),
        now,
        limits,
        buffer.as_mut_ptr(), buffer.len(),
        spare.as_mut_ptr(), spare.len(),
        first.as_mut_ptr(), first.len(),
        second.as_mut_ptr(), second.len(),
        &mut answer,
    ) };
    answer
}

#[inline]
pub(crate) fn stores_version(
    present: &abi::Present,
    present_version: u8,
    session: u16,
    version: u8,
) -> u8 {
    // SAFETY: as at the head of this file.
    unsafe { abi::rtr_stores_version(present, present_version, session, version) }
}

#[inline]
pub(crate) fn stores_saved(stores: &mut abi::Stores) -> u8 {
    // SAFETY: as at the head of this file.
    unsafe { abi::rtr_stores_saved(stores) }
}

#[inline]
pub(crate) fn stores_give_up(stores: &mut abi::Stores) -> u8 {
    // SAFETY: as at the head of this file.
    unsafe { abi::rtr_stores_give_up(stores) }
}

#[inline]
pub(crate) fn retry_after(previous: u32) -> u32 {
    // SAFETY: as at the head of this file.
    unsafe { abi::rtr_retry_after(previous) }
}

#[inline]
pub(crate) fn stores_state(
    stores: &abi::Stores,
    first: &[u8],
    second: &[u8],
) -> (abi::StoresState, u8) {
    let mut state = abi::StoresState::default();
    // SAFETY: as at the head of this file.
    let result = unsafe { abi::rtr_stores_state_nonnull(
        stores,
        first.as_ptr(), first.len(),
        second.as_ptr(), second.len(),
        &mut state,
    ) };
    (state, result)
}

#[inline]
pub(crate) fn history_since(
    history: &[u8],
    serial: u32,
    version: u8,
    index: &mut [usize],
    buffer: &mut [u8],
    spare: &mut [u8],
    output: &mut [u8],
) -> abi::StoresAnswer {
    let mut answer = abi::StoresAnswer::default();
    // SAFETY: as at the head of this file.
    unsafe { abi::rtr_history_since_nonnull(
        history.as_ptr(), history.len(),
        serial,
        version,
        index.as_mut_ptr(), index.len(),
        buffer.as_mut_ptr(), buffer.len(),
        spare.as_mut_ptr(), spare.len(),
        output.as_mut_ptr(), output.len(),
        &mut answer,
    ) };
    answer
}

#[inline]
pub(crate) fn history_data(history: &[u8]) -> (usize, usize, bool) {
    let mut offset = 0;
    let mut length = 0;
    // SAFETY: as at the head of this file.
    let result = unsafe { abi::rtr_history_data_nonnull(
        history.as_ptr(), history.len(),
        &mut offset,
        &mut length,
    ) };
    (offset, length, result)
}

#[inline]
pub(crate) fn history_knows(history: &[u8], serial: u32) -> bool {
    // SAFETY: as at the head of this file.
    unsafe { abi::rtr_history_knows_nonnull(history.as_ptr(), history.len(), serial) }
}

#[inline]
pub(crate) fn history_serials(history: &[u8], serials: &mut [u32]) -> abi::StoresAnswer {
    let mut answer = abi::StoresAnswer::default();
    // SAFETY: as at the head of this file.
    unsafe { abi::rtr_history_serials_nonnull(
        history.as_ptr(), history.len(),
        serials.as_mut_ptr(), serials.len(),
        &mut answer,
    ) };
    answer
}

#[inline]
pub(crate) fn store_seal(store: &[u8]) -> abi::StoreHead {
    let mut head = abi::StoreHead::default();
    // SAFETY: as at the head of this file.
    unsafe { abi::rtr_store_seal_nonnull(store.as_ptr(), store.len(), &mut head) };
    head
}

#[inline]
pub(crate) fn store_open(file: &[u8]) -> bool {
    // SAFETY: as at the head of this file.
    unsafe { abi::rtr_store_open_nonnull(file.as_ptr(), file.len()) }
}

#[inline]
pub(crate) fn store_open_old(file: &[u8], output: &mut [u8]) -> abi::StoresAnswer {
    let mut answer = abi::StoresAnswer::default();
    // SAFETY: as at the head of this file.
    unsafe { abi::rtr_store_open_old_nonnull(
        file.as_ptr(), file.len(),
        output.as_mut_ptr(), output.len(),
        &mut answer,
    ) };
    answer
}

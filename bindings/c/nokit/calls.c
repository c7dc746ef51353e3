/* Written by tools/bindings from the exports of crates/dine_ffi: the calls behind dine.c where the
 * library is the module as C, so that a C compiler is all that it needs. */
#include "loans.h"

int64_t dine_raw_plan_builder_open(dine_handle *handle) {
    call it = begin();
    u64 handle_at = lend_handle(&it, handle);
    if (!it.fits)
        return end(&it, DINE_MEMORY);
    return end(&it, (int64_t)Z_dine_ffiZ_dine_raw_plan_builder_open(&module, handle_at));
}

int64_t dine_raw_plan_builder_site(dine_handle *handle, const uint8_t *name, size_t name_len, uint32_t jobs) {
    call it = begin();
    u64 handle_at = lend_handle(&it, handle);
    u64 name_at = lend(&it, name, name_len * sizeof *name, false);
    if (!it.fits)
        return end(&it, DINE_MEMORY);
    return end(&it, (int64_t)Z_dine_ffiZ_dine_raw_plan_builder_site(&module, handle_at, name_at, name_len, jobs));
}

int64_t dine_raw_plan_builder_edge(dine_handle *handle, uint32_t a, uint32_t b) {
    call it = begin();
    u64 handle_at = lend_handle(&it, handle);
    if (!it.fits)
        return end(&it, DINE_MEMORY);
    return end(&it, (int64_t)Z_dine_ffiZ_dine_raw_plan_builder_edge(&module, handle_at, a, b));
}

int64_t dine_raw_plan_builder_value(dine_handle *handle, uint32_t edge, uint32_t value) {
    call it = begin();
    u64 handle_at = lend_handle(&it, handle);
    if (!it.fits)
        return end(&it, DINE_MEMORY);
    return end(&it, (int64_t)Z_dine_ffiZ_dine_raw_plan_builder_value(&module, handle_at, edge, value));
}

int64_t dine_raw_plan_builder_resign(dine_handle *handle, uint32_t site) {
    call it = begin();
    u64 handle_at = lend_handle(&it, handle);
    if (!it.fits)
        return end(&it, DINE_MEMORY);
    return end(&it, (int64_t)Z_dine_ffiZ_dine_raw_plan_builder_resign(&module, handle_at, site));
}

int64_t dine_raw_plan_builder_turns(dine_handle *handle, uint32_t site, uint32_t k, uint32_t turns) {
    call it = begin();
    u64 handle_at = lend_handle(&it, handle);
    if (!it.fits)
        return end(&it, DINE_MEMORY);
    return end(&it, (int64_t)Z_dine_ffiZ_dine_raw_plan_builder_turns(&module, handle_at, site, k, turns));
}

int64_t dine_raw_plan_builder_fails(dine_handle *handle, uint32_t site, uint32_t k) {
    call it = begin();
    u64 handle_at = lend_handle(&it, handle);
    if (!it.fits)
        return end(&it, DINE_MEMORY);
    return end(&it, (int64_t)Z_dine_ffiZ_dine_raw_plan_builder_fails(&module, handle_at, site, k));
}

int64_t dine_raw_plan_builder_act(dine_handle *handle, uint32_t site, uint32_t k, bool sets, uint32_t amount) {
    call it = begin();
    u64 handle_at = lend_handle(&it, handle);
    if (!it.fits)
        return end(&it, DINE_MEMORY);
    return end(&it, (int64_t)Z_dine_ffiZ_dine_raw_plan_builder_act(&module, handle_at, site, k, sets, amount));
}

int64_t dine_raw_plan_builder_finish(dine_handle *builder, dine_handle *plan) {
    call it = begin();
    u64 builder_at = lend_handle(&it, builder);
    u64 plan_at = lend_handle(&it, plan);
    if (!it.fits)
        return end(&it, DINE_MEMORY);
    return end(&it, (int64_t)Z_dine_ffiZ_dine_raw_plan_builder_finish(&module, builder_at, plan_at));
}

int64_t dine_raw_plan_open(const uint8_t *text, size_t text_len, dine_handle *handle) {
    call it = begin();
    u64 text_at = lend(&it, text, text_len * sizeof *text, false);
    u64 handle_at = lend_handle(&it, handle);
    if (!it.fits)
        return end(&it, DINE_MEMORY);
    return end(&it, (int64_t)Z_dine_ffiZ_dine_raw_plan_open(&module, text_at, text_len, handle_at));
}

int64_t dine_raw_plan_refusal(const uint8_t *text, size_t text_len, uint8_t *out, size_t out_len) {
    call it = begin();
    u64 text_at = lend(&it, text, text_len * sizeof *text, false);
    u64 out_at = lend(&it, out, out_len * sizeof *out, true);
    if (!it.fits)
        return end(&it, DINE_MEMORY);
    return end(&it, (int64_t)Z_dine_ffiZ_dine_raw_plan_refusal(&module, text_at, text_len, out_at, out_len));
}

int64_t dine_raw_close(dine_handle *handle) {
    call it = begin();
    u64 handle_at = lend_handle(&it, handle);
    if (!it.fits)
        return end(&it, DINE_MEMORY);
    return end(&it, (int64_t)Z_dine_ffiZ_dine_raw_close(&module, handle_at));
}

int64_t dine_raw_plan_version(dine_handle *handle) {
    call it = begin();
    u64 handle_at = lend_handle(&it, handle);
    if (!it.fits)
        return end(&it, DINE_MEMORY);
    return end(&it, (int64_t)Z_dine_ffiZ_dine_raw_plan_version(&module, handle_at));
}

int64_t dine_raw_plan_sites(dine_handle *handle) {
    call it = begin();
    u64 handle_at = lend_handle(&it, handle);
    if (!it.fits)
        return end(&it, DINE_MEMORY);
    return end(&it, (int64_t)Z_dine_ffiZ_dine_raw_plan_sites(&module, handle_at));
}

int64_t dine_raw_plan_edges(dine_handle *handle) {
    call it = begin();
    u64 handle_at = lend_handle(&it, handle);
    if (!it.fits)
        return end(&it, DINE_MEMORY);
    return end(&it, (int64_t)Z_dine_ffiZ_dine_raw_plan_edges(&module, handle_at));
}

int64_t dine_raw_plan_jobs(dine_handle *handle, uint32_t site) {
    call it = begin();
    u64 handle_at = lend_handle(&it, handle);
    if (!it.fits)
        return end(&it, DINE_MEMORY);
    return end(&it, (int64_t)Z_dine_ffiZ_dine_raw_plan_jobs(&module, handle_at, site));
}

int64_t dine_raw_plan_name(dine_handle *handle, uint32_t site, uint8_t *out, size_t out_len) {
    call it = begin();
    u64 handle_at = lend_handle(&it, handle);
    u64 out_at = lend(&it, out, out_len * sizeof *out, true);
    if (!it.fits)
        return end(&it, DINE_MEMORY);
    return end(&it, (int64_t)Z_dine_ffiZ_dine_raw_plan_name(&module, handle_at, site, out_at, out_len));
}

int64_t dine_raw_plan_ends(dine_handle *handle, uint32_t edge, dine_ends *out) {
    call it = begin();
    u64 handle_at = lend_handle(&it, handle);
    u64 out_at = lend(&it, out, sizeof *out, true);
    if (!it.fits)
        return end(&it, DINE_MEMORY);
    return end(&it, (int64_t)Z_dine_ffiZ_dine_raw_plan_ends(&module, handle_at, edge, out_at));
}

int64_t dine_raw_site_open(dine_handle *plan, uint32_t number, dine_handle *site) {
    call it = begin();
    u64 plan_at = lend_handle(&it, plan);
    u64 site_at = lend_handle(&it, site);
    if (!it.fits)
        return end(&it, DINE_MEMORY);
    return end(&it, (int64_t)Z_dine_ffiZ_dine_raw_site_open(&module, plan_at, number, site_at));
}

int64_t dine_raw_site_open_in(dine_handle *plan, uint32_t number, uint64_t run, dine_handle *site) {
    call it = begin();
    u64 plan_at = lend_handle(&it, plan);
    u64 site_at = lend_handle(&it, site);
    if (!it.fits)
        return end(&it, DINE_MEMORY);
    return end(&it, (int64_t)Z_dine_ffiZ_dine_raw_site_open_in(&module, plan_at, number, run, site_at));
}

int64_t dine_raw_site_state(dine_handle *handle, dine_site_now *out) {
    call it = begin();
    u64 handle_at = lend_handle(&it, handle);
    u64 out_at = lend(&it, out, sizeof *out, true);
    if (!it.fits)
        return end(&it, DINE_MEMORY);
    return end(&it, (int64_t)Z_dine_ffiZ_dine_raw_site_state(&module, handle_at, out_at));
}

int64_t dine_raw_site_place(dine_handle *handle, uint32_t i, dine_place *out) {
    call it = begin();
    u64 handle_at = lend_handle(&it, handle);
    u64 out_at = lend(&it, out, sizeof *out, true);
    if (!it.fits)
        return end(&it, DINE_MEMORY);
    return end(&it, (int64_t)Z_dine_ffiZ_dine_raw_site_place(&module, handle_at, i, out_at));
}

int64_t dine_raw_site_next(dine_handle *handle, dine_event *out) {
    call it = begin();
    u64 handle_at = lend_handle(&it, handle);
    u64 out_at = lend(&it, out, sizeof *out, true);
    if (!it.fits)
        return end(&it, DINE_MEMORY);
    return end(&it, (int64_t)Z_dine_ffiZ_dine_raw_site_next(&module, handle_at, out_at));
}

int64_t dine_raw_site_hungry(dine_handle *handle) {
    call it = begin();
    u64 handle_at = lend_handle(&it, handle);
    if (!it.fits)
        return end(&it, DINE_MEMORY);
    return end(&it, (int64_t)Z_dine_ffiZ_dine_raw_site_hungry(&module, handle_at));
}

int64_t dine_raw_site_quit(dine_handle *handle) {
    call it = begin();
    u64 handle_at = lend_handle(&it, handle);
    if (!it.fits)
        return end(&it, DINE_MEMORY);
    return end(&it, (int64_t)Z_dine_ffiZ_dine_raw_site_quit(&module, handle_at));
}

int64_t dine_raw_site_give(dine_handle *handle, uint32_t i, uint8_t *out, size_t out_len) {
    call it = begin();
    u64 handle_at = lend_handle(&it, handle);
    u64 out_at = lend(&it, out, out_len * sizeof *out, true);
    if (!it.fits)
        return end(&it, DINE_MEMORY);
    return end(&it, (int64_t)Z_dine_ffiZ_dine_raw_site_give(&module, handle_at, i, out_at, out_len));
}

int64_t dine_raw_site_ask(dine_handle *handle, uint32_t i, uint8_t *out, size_t out_len) {
    call it = begin();
    u64 handle_at = lend_handle(&it, handle);
    u64 out_at = lend(&it, out, out_len * sizeof *out, true);
    if (!it.fits)
        return end(&it, DINE_MEMORY);
    return end(&it, (int64_t)Z_dine_ffiZ_dine_raw_site_ask(&module, handle_at, i, out_at, out_len));
}

int64_t dine_raw_site_done(dine_handle *handle, uint32_t i, uint8_t *out, size_t out_len) {
    call it = begin();
    u64 handle_at = lend_handle(&it, handle);
    u64 out_at = lend(&it, out, out_len * sizeof *out, true);
    if (!it.fits)
        return end(&it, DINE_MEMORY);
    return end(&it, (int64_t)Z_dine_ffiZ_dine_raw_site_done(&module, handle_at, i, out_at, out_len));
}

int64_t dine_raw_site_shut(dine_handle *handle, uint32_t i, uint8_t *out, size_t out_len) {
    call it = begin();
    u64 handle_at = lend_handle(&it, handle);
    u64 out_at = lend(&it, out, out_len * sizeof *out, true);
    if (!it.fits)
        return end(&it, DINE_MEMORY);
    return end(&it, (int64_t)Z_dine_ffiZ_dine_raw_site_shut(&module, handle_at, i, out_at, out_len));
}

int64_t dine_raw_site_break(dine_handle *handle, uint32_t i, uint8_t *out, size_t out_len) {
    call it = begin();
    u64 handle_at = lend_handle(&it, handle);
    u64 out_at = lend(&it, out, out_len * sizeof *out, true);
    if (!it.fits)
        return end(&it, DINE_MEMORY);
    return end(&it, (int64_t)Z_dine_ffiZ_dine_raw_site_break(&module, handle_at, i, out_at, out_len));
}

int64_t dine_raw_site_act(dine_handle *handle, const dine_event *event, uint8_t *out, size_t out_len) {
    call it = begin();
    u64 handle_at = lend_handle(&it, handle);
    u64 event_at = lend(&it, event, sizeof *event, false);
    u64 out_at = lend(&it, out, out_len * sizeof *out, true);
    if (!it.fits)
        return end(&it, DINE_MEMORY);
    return end(&it, (int64_t)Z_dine_ffiZ_dine_raw_site_act(&module, handle_at, event_at, out_at, out_len));
}

int64_t dine_raw_site_turn(dine_handle *handle, dine_event *event, uint8_t *out, size_t out_len) {
    call it = begin();
    u64 handle_at = lend_handle(&it, handle);
    u64 event_at = lend(&it, event, sizeof *event, true);
    u64 out_at = lend(&it, out, out_len * sizeof *out, true);
    if (!it.fits)
        return end(&it, DINE_MEMORY);
    return end(&it, (int64_t)Z_dine_ffiZ_dine_raw_site_turn(&module, handle_at, event_at, out_at, out_len));
}

int64_t dine_raw_site_take(dine_handle *handle, const uint8_t *letter, size_t letter_len) {
    call it = begin();
    u64 handle_at = lend_handle(&it, handle);
    u64 letter_at = lend(&it, letter, letter_len * sizeof *letter, false);
    if (!it.fits)
        return end(&it, DINE_MEMORY);
    return end(&it, (int64_t)Z_dine_ffiZ_dine_raw_site_take(&module, handle_at, letter_at, letter_len));
}

int64_t dine_raw_site_begin(dine_handle *handle) {
    call it = begin();
    u64 handle_at = lend_handle(&it, handle);
    if (!it.fits)
        return end(&it, DINE_MEMORY);
    return end(&it, (int64_t)Z_dine_ffiZ_dine_raw_site_begin(&module, handle_at));
}

int64_t dine_raw_site_end(dine_handle *handle, bool failed) {
    call it = begin();
    u64 handle_at = lend_handle(&it, handle);
    if (!it.fits)
        return end(&it, DINE_MEMORY);
    return end(&it, (int64_t)Z_dine_ffiZ_dine_raw_site_end(&module, handle_at, failed));
}

int64_t dine_raw_site_fork(dine_handle *handle, uint32_t i, uint32_t *out, size_t out_len) {
    call it = begin();
    u64 handle_at = lend_handle(&it, handle);
    u64 out_at = lend(&it, out, out_len * sizeof *out, true);
    if (!it.fits)
        return end(&it, DINE_MEMORY);
    return end(&it, (int64_t)Z_dine_ffiZ_dine_raw_site_fork(&module, handle_at, i, out_at, out_len));
}

int64_t dine_raw_site_value(dine_handle *handle, uint32_t i) {
    call it = begin();
    u64 handle_at = lend_handle(&it, handle);
    if (!it.fits)
        return end(&it, DINE_MEMORY);
    return end(&it, (int64_t)Z_dine_ffiZ_dine_raw_site_value(&module, handle_at, i));
}

int64_t dine_raw_world_open(dine_handle *plan, dine_handle *world) {
    call it = begin();
    u64 plan_at = lend_handle(&it, plan);
    u64 world_at = lend_handle(&it, world);
    if (!it.fits)
        return end(&it, DINE_MEMORY);
    return end(&it, (int64_t)Z_dine_ffiZ_dine_raw_world_open(&module, plan_at, world_at));
}

int64_t dine_raw_world_bound(dine_handle *handle) {
    call it = begin();
    u64 handle_at = lend_handle(&it, handle);
    if (!it.fits)
        return end(&it, DINE_MEMORY);
    return end(&it, (int64_t)Z_dine_ffiZ_dine_raw_world_bound(&module, handle_at));
}

int64_t dine_raw_world_count(dine_handle *handle) {
    call it = begin();
    u64 handle_at = lend_handle(&it, handle);
    if (!it.fits)
        return end(&it, DINE_MEMORY);
    return end(&it, (int64_t)Z_dine_ffiZ_dine_raw_world_count(&module, handle_at));
}

int64_t dine_raw_world_enabled(dine_handle *handle, uint32_t n, dine_event *out) {
    call it = begin();
    u64 handle_at = lend_handle(&it, handle);
    u64 out_at = lend(&it, out, sizeof *out, true);
    if (!it.fits)
        return end(&it, DINE_MEMORY);
    return end(&it, (int64_t)Z_dine_ffiZ_dine_raw_world_enabled(&module, handle_at, n, out_at));
}

int64_t dine_raw_world_step(dine_handle *handle, const dine_event *event) {
    call it = begin();
    u64 handle_at = lend_handle(&it, handle);
    u64 event_at = lend(&it, event, sizeof *event, false);
    if (!it.fits)
        return end(&it, DINE_MEMORY);
    return end(&it, (int64_t)Z_dine_ffiZ_dine_raw_world_step(&module, handle_at, event_at));
}

int64_t dine_raw_world_replay(dine_handle *handle, const uint32_t *choices, size_t choices_len) {
    call it = begin();
    u64 handle_at = lend_handle(&it, handle);
    u64 choices_at = lend(&it, choices, choices_len * sizeof *choices, false);
    if (!it.fits)
        return end(&it, DINE_MEMORY);
    return end(&it, (int64_t)Z_dine_ffiZ_dine_raw_world_replay(&module, handle_at, choices_at, choices_len));
}

int64_t dine_raw_world_finish(dine_handle *handle) {
    call it = begin();
    u64 handle_at = lend_handle(&it, handle);
    if (!it.fits)
        return end(&it, DINE_MEMORY);
    return end(&it, (int64_t)Z_dine_ffiZ_dine_raw_world_finish(&module, handle_at));
}

int64_t dine_raw_world_phase(dine_handle *handle, uint32_t site) {
    call it = begin();
    u64 handle_at = lend_handle(&it, handle);
    if (!it.fits)
        return end(&it, DINE_MEMORY);
    return end(&it, (int64_t)Z_dine_ffiZ_dine_raw_world_phase(&module, handle_at, site));
}

int64_t dine_raw_world_ate(dine_handle *handle, uint32_t site) {
    call it = begin();
    u64 handle_at = lend_handle(&it, handle);
    if (!it.fits)
        return end(&it, DINE_MEMORY);
    return end(&it, (int64_t)Z_dine_ffiZ_dine_raw_world_ate(&module, handle_at, site));
}

int64_t dine_raw_world_fork(dine_handle *handle, uint32_t edge, uint32_t *out, size_t out_len) {
    call it = begin();
    u64 handle_at = lend_handle(&it, handle);
    u64 out_at = lend(&it, out, out_len * sizeof *out, true);
    if (!it.fits)
        return end(&it, DINE_MEMORY);
    return end(&it, (int64_t)Z_dine_ffiZ_dine_raw_world_fork(&module, handle_at, edge, out_at, out_len));
}

int64_t dine_raw_world_value(dine_handle *handle, uint32_t edge) {
    call it = begin();
    u64 handle_at = lend_handle(&it, handle);
    if (!it.fits)
        return end(&it, DINE_MEMORY);
    return end(&it, (int64_t)Z_dine_ffiZ_dine_raw_world_value(&module, handle_at, edge));
}

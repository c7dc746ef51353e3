/* Written by tools/bindings from the exports of crates/dine_ffi. Each call answers a null pointer, and
 * two handles that are one, and else goes to the proved call, which is given no null pointer. */
#include "dine.h"

static uint32_t nothing;

int64_t dine_raw_plan_builder_open(dine_handle *handle);
int64_t dine_raw_plan_builder_site(dine_handle *handle, const uint8_t *name, size_t name_len, uint32_t jobs);
int64_t dine_raw_plan_builder_edge(dine_handle *handle, uint32_t a, uint32_t b);
int64_t dine_raw_plan_builder_value(dine_handle *handle, uint32_t edge, uint32_t value);
int64_t dine_raw_plan_builder_resign(dine_handle *handle, uint32_t site);
int64_t dine_raw_plan_builder_turns(dine_handle *handle, uint32_t site, uint32_t k, uint32_t turns);
int64_t dine_raw_plan_builder_fails(dine_handle *handle, uint32_t site, uint32_t k);
int64_t dine_raw_plan_builder_act(dine_handle *handle, uint32_t site, uint32_t k, bool sets, uint32_t amount);
int64_t dine_raw_plan_builder_finish(dine_handle *builder, dine_handle *plan);
int64_t dine_raw_plan_open(const uint8_t *text, size_t text_len, dine_handle *handle);
int64_t dine_raw_plan_refusal(const uint8_t *text, size_t text_len, uint8_t *out, size_t out_len);
int64_t dine_raw_close(dine_handle *handle);
int64_t dine_raw_plan_version(dine_handle *handle);
int64_t dine_raw_plan_sites(dine_handle *handle);
int64_t dine_raw_plan_edges(dine_handle *handle);
int64_t dine_raw_plan_jobs(dine_handle *handle, uint32_t site);
int64_t dine_raw_plan_name(dine_handle *handle, uint32_t site, uint8_t *out, size_t out_len);
int64_t dine_raw_plan_ends(dine_handle *handle, uint32_t edge, dine_ends *out);
int64_t dine_raw_site_open(dine_handle *plan, uint32_t number, dine_handle *site);
int64_t dine_raw_site_open_in(dine_handle *plan, uint32_t number, uint64_t run, dine_handle *site);
int64_t dine_raw_site_state(dine_handle *handle, dine_site_now *out);
int64_t dine_raw_site_place(dine_handle *handle, uint32_t i, dine_place *out);
int64_t dine_raw_site_next(dine_handle *handle, dine_event *out);
int64_t dine_raw_site_hungry(dine_handle *handle);
int64_t dine_raw_site_quit(dine_handle *handle);
int64_t dine_raw_site_give(dine_handle *handle, uint32_t i, uint8_t *out, size_t out_len);
int64_t dine_raw_site_ask(dine_handle *handle, uint32_t i, uint8_t *out, size_t out_len);
int64_t dine_raw_site_done(dine_handle *handle, uint32_t i, uint8_t *out, size_t out_len);
int64_t dine_raw_site_shut(dine_handle *handle, uint32_t i, uint8_t *out, size_t out_len);
int64_t dine_raw_site_break(dine_handle *handle, uint32_t i, uint8_t *out, size_t out_len);
int64_t dine_raw_site_act(dine_handle *handle, const dine_event *event, uint8_t *out, size_t out_len);
int64_t dine_raw_site_turn(dine_handle *handle, dine_event *event, uint8_t *out, size_t out_len);
int64_t dine_raw_site_take(dine_handle *handle, const uint8_t *letter, size_t letter_len);
int64_t dine_raw_site_begin(dine_handle *handle);
int64_t dine_raw_site_end(dine_handle *handle, bool failed);
int64_t dine_raw_site_fork(dine_handle *handle, uint32_t i, uint32_t *out, size_t out_len);
int64_t dine_raw_site_value(dine_handle *handle, uint32_t i);
int64_t dine_raw_world_open(dine_handle *plan, dine_handle *world);
int64_t dine_raw_world_bound(dine_handle *handle);
int64_t dine_raw_world_count(dine_handle *handle);
int64_t dine_raw_world_enabled(dine_handle *handle, uint32_t n, dine_event *out);
int64_t dine_raw_world_step(dine_handle *handle, const dine_event *event);
int64_t dine_raw_world_replay(dine_handle *handle, const uint32_t *choices, size_t choices_len);
int64_t dine_raw_world_finish(dine_handle *handle);
int64_t dine_raw_world_phase(dine_handle *handle, uint32_t site);
int64_t dine_raw_world_ate(dine_handle *handle, uint32_t site);
int64_t dine_raw_world_fork(dine_handle *handle, uint32_t edge, uint32_t *out, size_t out_len);
int64_t dine_raw_world_value(dine_handle *handle, uint32_t edge);

int64_t dine_plan_builder_open(dine_handle *handle) {
    if (!handle)
        return DINE_NULL;
    return dine_raw_plan_builder_open(handle);
}

int64_t dine_plan_builder_site(dine_handle *handle, const uint8_t *name, size_t name_len, uint32_t jobs) {
    if (!handle)
        return DINE_NULL;
    if (!name) {
        if (name_len)
            return DINE_NULL;
        name = (void *)&nothing;
    }
    return dine_raw_plan_builder_site(handle, name, name_len, jobs);
}

int64_t dine_plan_builder_edge(dine_handle *handle, uint32_t a, uint32_t b) {
    if (!handle)
        return DINE_NULL;
    return dine_raw_plan_builder_edge(handle, a, b);
}

int64_t dine_plan_builder_value(dine_handle *handle, uint32_t edge, uint32_t value) {
    if (!handle)
        return DINE_NULL;
    return dine_raw_plan_builder_value(handle, edge, value);
}

int64_t dine_plan_builder_resign(dine_handle *handle, uint32_t site) {
    if (!handle)
        return DINE_NULL;
    return dine_raw_plan_builder_resign(handle, site);
}

int64_t dine_plan_builder_turns(dine_handle *handle, uint32_t site, uint32_t k, uint32_t turns) {
    if (!handle)
        return DINE_NULL;
    return dine_raw_plan_builder_turns(handle, site, k, turns);
}

int64_t dine_plan_builder_fails(dine_handle *handle, uint32_t site, uint32_t k) {
    if (!handle)
        return DINE_NULL;
    return dine_raw_plan_builder_fails(handle, site, k);
}

int64_t dine_plan_builder_act(dine_handle *handle, uint32_t site, uint32_t k, bool sets, uint32_t amount) {
    if (!handle)
        return DINE_NULL;
    return dine_raw_plan_builder_act(handle, site, k, sets, amount);
}

int64_t dine_plan_builder_finish(dine_handle *builder, dine_handle *plan) {
    if (!builder)
        return DINE_NULL;
    if (!plan)
        return DINE_NULL;
    if (builder == plan)
        return DINE_SAME_HANDLE;
    return dine_raw_plan_builder_finish(builder, plan);
}

int64_t dine_plan_open(const uint8_t *text, size_t text_len, dine_handle *handle) {
    if (!text) {
        if (text_len)
            return DINE_NULL;
        text = (void *)&nothing;
    }
    if (!handle)
        return DINE_NULL;
    return dine_raw_plan_open(text, text_len, handle);
}

int64_t dine_plan_refusal(const uint8_t *text, size_t text_len, uint8_t *out, size_t out_len) {
    if (!text) {
        if (text_len)
            return DINE_NULL;
        text = (void *)&nothing;
    }
    if (!out) {
        if (out_len)
            return DINE_NULL;
        out = (void *)&nothing;
    }
    return dine_raw_plan_refusal(text, text_len, out, out_len);
}

int64_t dine_close(dine_handle *handle) {
    if (!handle)
        return DINE_NULL;
    return dine_raw_close(handle);
}

int64_t dine_plan_version(dine_handle *handle) {
    if (!handle)
        return DINE_NULL;
    return dine_raw_plan_version(handle);
}

int64_t dine_plan_sites(dine_handle *handle) {
    if (!handle)
        return DINE_NULL;
    return dine_raw_plan_sites(handle);
}

int64_t dine_plan_edges(dine_handle *handle) {
    if (!handle)
        return DINE_NULL;
    return dine_raw_plan_edges(handle);
}

int64_t dine_plan_jobs(dine_handle *handle, uint32_t site) {
    if (!handle)
        return DINE_NULL;
    return dine_raw_plan_jobs(handle, site);
}

int64_t dine_plan_name(dine_handle *handle, uint32_t site, uint8_t *out, size_t out_len) {
    if (!handle)
        return DINE_NULL;
    if (!out) {
        if (out_len)
            return DINE_NULL;
        out = (void *)&nothing;
    }
    return dine_raw_plan_name(handle, site, out, out_len);
}

int64_t dine_plan_ends(dine_handle *handle, uint32_t edge, dine_ends *out) {
    if (!handle)
        return DINE_NULL;
    if (!out)
        return DINE_NULL;
    return dine_raw_plan_ends(handle, edge, out);
}

int64_t dine_site_open(dine_handle *plan, uint32_t number, dine_handle *site) {
    if (!plan)
        return DINE_NULL;
    if (!site)
        return DINE_NULL;
    if (plan == site)
        return DINE_SAME_HANDLE;
    return dine_raw_site_open(plan, number, site);
}

int64_t dine_site_open_in(dine_handle *plan, uint32_t number, uint64_t run, dine_handle *site) {
    if (!plan)
        return DINE_NULL;
    if (!site)
        return DINE_NULL;
    if (plan == site)
        return DINE_SAME_HANDLE;
    return dine_raw_site_open_in(plan, number, run, site);
}

int64_t dine_site_state(dine_handle *handle, dine_site_now *out) {
    if (!handle)
        return DINE_NULL;
    if (!out)
        return DINE_NULL;
    return dine_raw_site_state(handle, out);
}

int64_t dine_site_place(dine_handle *handle, uint32_t i, dine_place *out) {
    if (!handle)
        return DINE_NULL;
    if (!out)
        return DINE_NULL;
    return dine_raw_site_place(handle, i, out);
}

int64_t dine_site_next(dine_handle *handle, dine_event *out) {
    if (!handle)
        return DINE_NULL;
    if (!out)
        return DINE_NULL;
    return dine_raw_site_next(handle, out);
}

int64_t dine_site_hungry(dine_handle *handle) {
    if (!handle)
        return DINE_NULL;
    return dine_raw_site_hungry(handle);
}

int64_t dine_site_quit(dine_handle *handle) {
    if (!handle)
        return DINE_NULL;
    return dine_raw_site_quit(handle);
}

int64_t dine_site_give(dine_handle *handle, uint32_t i, uint8_t *out, size_t out_len) {
    if (!handle)
        return DINE_NULL;
    if (!out) {
        if (out_len)
            return DINE_NULL;
        out = (void *)&nothing;
    }
    return dine_raw_site_give(handle, i, out, out_len);
}

int64_t dine_site_ask(dine_handle *handle, uint32_t i, uint8_t *out, size_t out_len) {
    if (!handle)
        return DINE_NULL;
    if (!out) {
        if (out_len)
            return DINE_NULL;
        out = (void *)&nothing;
    }
    return dine_raw_site_ask(handle, i, out, out_len);
}

int64_t dine_site_done(dine_handle *handle, uint32_t i, uint8_t *out, size_t out_len) {
    if (!handle)
        return DINE_NULL;
    if (!out) {
        if (out_len)
            return DINE_NULL;
        out = (void *)&nothing;
    }
    return dine_raw_site_done(handle, i, out, out_len);
}

int64_t dine_site_shut(dine_handle *handle, uint32_t i, uint8_t *out, size_t out_len) {
    if (!handle)
        return DINE_NULL;
    if (!out) {
        if (out_len)
            return DINE_NULL;
        out = (void *)&nothing;
    }
    return dine_raw_site_shut(handle, i, out, out_len);
}

int64_t dine_site_break(dine_handle *handle, uint32_t i, uint8_t *out, size_t out_len) {
    if (!handle)
        return DINE_NULL;
    if (!out) {
        if (out_len)
            return DINE_NULL;
        out = (void *)&nothing;
    }
    return dine_raw_site_break(handle, i, out, out_len);
}

int64_t dine_site_act(dine_handle *handle, const dine_event *event, uint8_t *out, size_t out_len) {
    if (!handle)
        return DINE_NULL;
    if (!event)
        return DINE_NULL;
    if (!out) {
        if (out_len)
            return DINE_NULL;
        out = (void *)&nothing;
    }
    return dine_raw_site_act(handle, event, out, out_len);
}

int64_t dine_site_turn(dine_handle *handle, dine_event *event, uint8_t *out, size_t out_len) {
    if (!handle)
        return DINE_NULL;
    if (!event)
        return DINE_NULL;
    if (!out) {
        if (out_len)
            return DINE_NULL;
        out = (void *)&nothing;
    }
    return dine_raw_site_turn(handle, event, out, out_len);
}

int64_t dine_site_take(dine_handle *handle, const uint8_t *letter, size_t letter_len) {
    if (!handle)
        return DINE_NULL;
    if (!letter) {
        if (letter_len)
            return DINE_NULL;
        letter = (void *)&nothing;
    }
    return dine_raw_site_take(handle, letter, letter_len);
}

int64_t dine_site_begin(dine_handle *handle) {
    if (!handle)
        return DINE_NULL;
    return dine_raw_site_begin(handle);
}

int64_t dine_site_end(dine_handle *handle, bool failed) {
    if (!handle)
        return DINE_NULL;
    return dine_raw_site_end(handle, failed);
}

int64_t dine_site_fork(dine_handle *handle, uint32_t i, uint32_t *out, size_t out_len) {
    if (!handle)
        return DINE_NULL;
    if (!out) {
        if (out_len)
            return DINE_NULL;
        out = (void *)&nothing;
    }
    return dine_raw_site_fork(handle, i, out, out_len);
}

int64_t dine_site_value(dine_handle *handle, uint32_t i) {
    if (!handle)
        return DINE_NULL;
    return dine_raw_site_value(handle, i);
}

int64_t dine_world_open(dine_handle *plan, dine_handle *world) {
    if (!plan)
        return DINE_NULL;
    if (!world)
        return DINE_NULL;
    if (plan == world)
        return DINE_SAME_HANDLE;
    return dine_raw_world_open(plan, world);
}

int64_t dine_world_bound(dine_handle *handle) {
    if (!handle)
        return DINE_NULL;
    return dine_raw_world_bound(handle);
}

int64_t dine_world_count(dine_handle *handle) {
    if (!handle)
        return DINE_NULL;
    return dine_raw_world_count(handle);
}

int64_t dine_world_enabled(dine_handle *handle, uint32_t n, dine_event *out) {
    if (!handle)
        return DINE_NULL;
    if (!out)
        return DINE_NULL;
    return dine_raw_world_enabled(handle, n, out);
}

int64_t dine_world_step(dine_handle *handle, const dine_event *event) {
    if (!handle)
        return DINE_NULL;
    if (!event)
        return DINE_NULL;
    return dine_raw_world_step(handle, event);
}

int64_t dine_world_replay(dine_handle *handle, const uint32_t *choices, size_t choices_len) {
    if (!handle)
        return DINE_NULL;
    if (!choices) {
        if (choices_len)
            return DINE_NULL;
        choices = (void *)&nothing;
    }
    return dine_raw_world_replay(handle, choices, choices_len);
}

int64_t dine_world_finish(dine_handle *handle) {
    if (!handle)
        return DINE_NULL;
    return dine_raw_world_finish(handle);
}

int64_t dine_world_phase(dine_handle *handle, uint32_t site) {
    if (!handle)
        return DINE_NULL;
    return dine_raw_world_phase(handle, site);
}

int64_t dine_world_ate(dine_handle *handle, uint32_t site) {
    if (!handle)
        return DINE_NULL;
    return dine_raw_world_ate(handle, site);
}

int64_t dine_world_fork(dine_handle *handle, uint32_t edge, uint32_t *out, size_t out_len) {
    if (!handle)
        return DINE_NULL;
    if (!out) {
        if (out_len)
            return DINE_NULL;
        out = (void *)&nothing;
    }
    return dine_raw_world_fork(handle, edge, out, out_len);
}

int64_t dine_world_value(dine_handle *handle, uint32_t edge) {
    if (!handle)
        return DINE_NULL;
    return dine_raw_world_value(handle, edge);
}

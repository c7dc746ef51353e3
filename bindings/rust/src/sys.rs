//! Written by tools/bindings from the exports of crates/dine_ffi: the calls of `dine.h`.

#[repr(C)]
pub struct Handle {
    pub at: *mut core::ffi::c_void,
    pub state: u32,
}

#[repr(C)]
#[derive(Clone, Copy, Default)]
pub struct Event {
    pub site: u32,
    pub kind: u32,
    pub place: u32,
}

#[repr(C)]
#[derive(Clone, Copy, Default)]
pub struct Ends {
    pub lower: u32,
    pub higher: u32,
}

#[repr(C)]
#[derive(Clone, Copy, Default)]
pub struct SiteState {
    pub phase: u32,
    pub ate: u32,
    pub degree: u32,
    pub finished: u32,
}

#[repr(C)]
#[derive(Clone, Copy, Default)]
pub struct Place {
    pub edge: u32,
    pub neighbour: u32,
    pub has_fork: u32,
    pub has_token: u32,
    pub is_dirty: u32,
    pub is_closed: u32,
}

extern "C" {
    pub fn dine_plan_builder_open(
        handle: *mut Handle,
    ) -> i64;
    pub fn dine_plan_builder_site(
        handle: *mut Handle,
        name: *const u8,
        name_len: usize,
        jobs: u32,
    ) -> i64;
    pub fn dine_plan_builder_edge(
        handle: *mut Handle,
        a: u32,
        b: u32,
    ) -> i64;
    pub fn dine_plan_builder_value(
        handle: *mut Handle,
        edge: u32,
        value: u32,
    ) -> i64;
    pub fn dine_plan_builder_resign(
        handle: *mut Handle,
        site: u32,
    ) -> i64;
    pub fn dine_plan_builder_turns(
        handle: *mut Handle,
        site: u32,
        k: u32,
        turns: u32,
    ) -> i64;
    pub fn dine_plan_builder_fails(
        handle: *mut Handle,
        site: u32,
        k: u32,
    ) -> i64;
    pub fn dine_plan_builder_act(
        handle: *mut Handle,
        site: u32,
        k: u32,
        sets: bool,
        amount: u32,
    ) -> i64;
    pub fn dine_plan_builder_finish(
        builder: *mut Handle,
        plan: *mut Handle,
    ) -> i64;
    pub fn dine_plan_open(
        text: *const u8,
        text_len: usize,
        handle: *mut Handle,
    ) -> i64;
    pub fn dine_plan_refusal(
        text: *const u8,
        text_len: usize,
        out: *mut u8,
        out_len: usize,
    ) -> i64;
    pub fn dine_close(
        handle: *mut Handle,
    ) -> i64;
    pub fn dine_plan_version(
        handle: *mut Handle,
    ) -> i64;
    pub fn dine_plan_sites(
        handle: *mut Handle,
    ) -> i64;
    pub fn dine_plan_edges(
        handle: *mut Handle,
    ) -> i64;
    pub fn dine_plan_jobs(
        handle: *mut Handle,
        site: u32,
    ) -> i64;
    pub fn dine_plan_name(
        handle: *mut Handle,
        site: u32,
        out: *mut u8,
        out_len: usize,
    ) -> i64;
    pub fn dine_plan_ends(
        handle: *mut Handle,
        edge: u32,
        out: *mut Ends,
    ) -> i64;
    pub fn dine_site_open(
        plan: *mut Handle,
        number: u32,
        site: *mut Handle,
    ) -> i64;
    pub fn dine_site_open_in(
        plan: *mut Handle,
        number: u32,
        run: u64,
        site: *mut Handle,
    ) -> i64;
    pub fn dine_site_state(
        handle: *mut Handle,
        out: *mut SiteState,
    ) -> i64;
    pub fn dine_site_place(
        handle: *mut Handle,
        i: u32,
        out: *mut Place,
    ) -> i64;
    pub fn dine_site_next(
        handle: *mut Handle,
        out: *mut Event,
    ) -> i64;
    pub fn dine_site_hungry(
        handle: *mut Handle,
    ) -> i64;
    pub fn dine_site_quit(
        handle: *mut Handle,
    ) -> i64;
    pub fn dine_site_give(
        handle: *mut Handle,
        i: u32,
        out: *mut u8,
        out_len: usize,
    ) -> i64;
    pub fn dine_site_ask(
        handle: *mut Handle,
        i: u32,
        out: *mut u8,
        out_len: usize,
    ) -> i64;
    pub fn dine_site_done(
        handle: *mut Handle,
        i: u32,
        out: *mut u8,
        out_len: usize,
    ) -> i64;
    pub fn dine_site_shut(
        handle: *mut Handle,
        i: u32,
        out: *mut u8,
        out_len: usize,
    ) -> i64;
    pub fn dine_site_break(
        handle: *mut Handle,
        i: u32,
        out: *mut u8,
        out_len: usize,
    ) -> i64;
    pub fn dine_site_act(
        handle: *mut Handle,
        event: *const Event,
        out: *mut u8,
        out_len: usize,
    ) -> i64;
    pub fn dine_site_turn(
        handle: *mut Handle,
        event: *mut Event,
        out: *mut u8,
        out_len: usize,
    ) -> i64;
    pub fn dine_site_take(
        handle: *mut Handle,
        letter: *const u8,
        letter_len: usize,
    ) -> i64;
    pub fn dine_site_begin(
        handle: *mut Handle,
    ) -> i64;
    pub fn dine_site_end(
        handle: *mut Handle,
        failed: bool,
    ) -> i64;
    pub fn dine_site_fork(
        handle: *mut Handle,
        i: u32,
        out: *mut u32,
        out_len: usize,
    ) -> i64;
    pub fn dine_site_value(
        handle: *mut Handle,
        i: u32,
    ) -> i64;
    pub fn dine_world_open(
        plan: *mut Handle,
        world: *mut Handle,
    ) -> i64;
    pub fn dine_world_bound(
        handle: *mut Handle,
    ) -> i64;
    pub fn dine_world_count(
        handle: *mut Handle,
    ) -> i64;
    pub fn dine_world_enabled(
        handle: *mut Handle,
        n: u32,
        out: *mut Event,
    ) -> i64;
    pub fn dine_world_step(
        handle: *mut Handle,
        event: *const Event,
    ) -> i64;
    pub fn dine_world_replay(
        handle: *mut Handle,
        choices: *const u32,
        choices_len: usize,
    ) -> i64;
    pub fn dine_world_finish(
        handle: *mut Handle,
    ) -> i64;
    pub fn dine_world_phase(
        handle: *mut Handle,
        site: u32,
    ) -> i64;
    pub fn dine_world_ate(
        handle: *mut Handle,
        site: u32,
    ) -> i64;
    pub fn dine_world_fork(
        handle: *mut Handle,
        edge: u32,
        out: *mut u32,
        out_len: usize,
    ) -> i64;
    pub fn dine_world_value(
        handle: *mut Handle,
        edge: u32,
    ) -> i64;
}

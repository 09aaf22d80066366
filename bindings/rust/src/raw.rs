//! The calls of `include/linkd.h`, of this version. Nothing compares these declarations with the header but the crate's tests.

pub const VERSION: u32 = 12;

/// A linker, a seat, a memo, a view or a renewal, in a block of a size that the library tells.
#[repr(C)]
pub struct Opaque {
    _hidden: [u8; 0],
}

#[repr(C)]
#[derive(Clone, Copy, Default)]
pub struct Told {
    pub number: u32,
    pub fault: u32,
    pub place: u32,
    pub cause: u32,
    pub at: u32,
    pub dropped: u32,
}

#[repr(C)]
#[derive(Clone, Copy)]
pub struct TargetPart {
    pub kind: u32,
    pub number: u32,
    pub value: u32,
}

#[repr(C)]
#[derive(Clone, Copy, Default)]
pub struct Answer {
    pub kind: u32,
    pub class_number: u32,
    pub value: u32,
}

impl Answer {
    /// The answer of which these are the 64 bits.
    #[inline]
    pub fn of_bits(bits: u64) -> Answer {
        Answer { kind: (bits >> 56) as u32, class_number: bits as u32, value: (bits >> 32) as u32 & 0xff_ffff }
    }
}

#[repr(C)]
#[derive(Clone, Copy, Default)]
pub struct Resolution {
    pub kind: u32,
    pub value: u32,
    pub class_number: u32,
    pub method: u32,
}

#[repr(C)]
#[derive(Clone, Copy, Default)]
pub struct Row {
    pub receiver: u32,
    pub kind: u32,
    pub class_number: u32,
    pub value: u32,
}

#[repr(C)]
#[derive(Clone, Copy, Default)]
pub struct Link {
    pub kind: u32,
    pub count: u32,
    pub rows: [Row; 8],
}

#[repr(C)]
#[derive(Clone, Copy, Default)]
pub struct LinkRow {
    pub site: u32,
    pub link: Link,
}

#[repr(C)]
#[derive(Clone, Copy, Default)]
pub struct Invocation {
    pub pc: u32,
    pub opcode: u32,
}

#[repr(C)]
#[derive(Clone, Copy, Default)]
pub struct Counts {
    pub loaders: u32,
    pub classes: u32,
    pub sites: u32,
    pub call_sites: u32,
    pub switches: u32,
}

pub const DONE: u32 = 0;
pub const STALE: u32 = 10;
pub const CLOSED: u32 = 34;
pub const TOO_SHORT: u32 = 36;
pub const NULL: u32 = u32::MAX;
pub const NO_NUMBER: u32 = u32::MAX;

extern "C" {
    pub fn linkd_version() -> u32;
    pub fn linkd_size() -> usize;
    pub fn linkd_align() -> usize;
    pub fn linkd_blank(at: *mut Opaque);
    pub fn linkd_open(at: *mut Opaque, max_sites: u32) -> u32;
    pub fn linkd_open_with(at: *mut Opaque, sites: u32, loaders: u32, classes: u32, call_sites: u32, switches: u32) -> u32;
    pub fn linkd_close(at: *mut Opaque);
    pub fn linkd_new_loader(at: *mut Opaque, told: *mut Told) -> u32;
    pub fn linkd_define(at: *mut Opaque, loader: u32, bytes: *const u8, length: usize, told: *mut Told) -> u32;
    pub fn linkd_define_up_to(at: *mut Opaque, loader: u32, newest: u16, bytes: *const u8, length: usize, told: *mut Told) -> u32;
    pub fn linkd_delegate(at: *mut Opaque, loader: u32, name: *const u8, name_length: usize, to: u32, told: *mut Told) -> u32;
    pub fn linkd_request(at: *mut Opaque, class_number: u32, method: u32, pc: u32, told: *mut Told) -> u32;
    pub fn linkd_new_call_site_of(
        at: *mut Opaque,
        kind: u32,
        type_: *const u8,
        type_length: usize,
        parts: *const TargetPart,
        count: usize,
        told: *mut Told,
    ) -> u32;
    pub fn linkd_set_target_of(at: *mut Opaque, call_site: u32, parts: *const TargetPart, count: usize, told: *mut Told) -> u32;
    pub fn linkd_new_switch(at: *mut Opaque, told: *mut Told) -> u32;
    pub fn linkd_invalidate(at: *mut Opaque, switches: *const u32, count: usize, told: *mut Told) -> u32;
    pub fn linkd_bind(at: *mut Opaque, site: u32, call_site: u32, told: *mut Told) -> u32;
    pub fn linkd_retire(at: *mut Opaque, loader: u32, told: *mut Told) -> u32;
    pub fn linkd_retire_all(at: *mut Opaque, loaders: *const u32, count: usize, told: *mut Told) -> u32;
    pub fn linkd_release(
        at: *mut Opaque,
        call_sites: *const u32,
        call_site_count: usize,
        switches: *const u32,
        switch_count: usize,
        told: *mut Told,
    ) -> u32;
    pub fn linkd_install(at: *mut Opaque, sites: *const u32, count: usize, told: *mut Told) -> u32;
    pub fn linkd_install_links(at: *mut Opaque, rows: *const LinkRow, count: usize, told: *mut Told, present: *mut Link) -> u32;
    pub fn linkd_dropped(at: *mut Opaque, out: *mut u32, capacity: usize, length: *mut usize) -> u32;
    pub fn linkd_call(at: *mut Opaque, site: u32, receiver: u32, answer: *mut Answer) -> u32;
    pub fn linkd_link_of(at: *mut Opaque, site: u32, link: *mut Link) -> u32;
    pub fn linkd_link_place(at: *mut Opaque, class_number: u32, method: u32, pc: u32, link: *mut Link, told: *mut Told) -> u32;
    pub fn linkd_install_ready(at: *mut Opaque, sites: *const u32, count: usize, links: *mut Link, capacity: usize, told: *mut Told)
        -> u32;
    pub fn linkd_check(at: *mut Opaque, newest: u16, bytes: *const u8, length: usize, told: *mut Told) -> u32;
    pub fn linkd_select(at: *mut Opaque, class_number: u32, method: u32, receiver: u32, answer: *mut Answer) -> u32;
    pub fn linkd_resolve(
        at: *mut Opaque,
        from: u32,
        named: u32,
        name: *const u8,
        name_length: usize,
        type_: *const u8,
        type_length: usize,
        resolution: *mut Resolution,
    ) -> u32;
    pub fn linkd_class_accessible(at: *mut Opaque, from: u32, class_number: u32, accessible: *mut u32) -> u32;
    pub fn linkd_lookup(at: *mut Opaque, loader: u32, name: *const u8, name_length: usize, class_number: *mut u32) -> u32;
    pub fn linkd_class_name(at: *mut Opaque, class_number: u32, out: *mut u8, capacity: usize, length: *mut usize) -> u32;
    pub fn linkd_method_name(at: *mut Opaque, class_number: u32, method: u32, out: *mut u8, capacity: usize, length: *mut usize) -> u32;
    pub fn linkd_method_type(at: *mut Opaque, class_number: u32, method: u32, out: *mut u8, capacity: usize, length: *mut usize) -> u32;
    pub fn linkd_invocations(
        at: *mut Opaque,
        class_number: u32,
        method: u32,
        out: *mut Invocation,
        capacity: usize,
        length: *mut usize,
    ) -> u32;
    pub fn linkd_refused_name(at: *mut Opaque, out: *mut u8, capacity: usize, length: *mut usize) -> u32;
    pub fn linkd_awaited(at: *mut Opaque, site: u32, out: *mut u8, capacity: usize, length: *mut usize) -> u32;
    pub fn linkd_last_work(at: *mut Opaque, work: *mut u64) -> u32;
    pub fn linkd_catch_up(at: *mut Opaque) -> u32;
    pub fn linkd_counts(at: *mut Opaque, counts: *mut Counts) -> u32;
    pub fn linkd_renew_into(
        at: *mut Opaque,
        fresh: *mut Opaque,
        max_sites: u32,
        released_call_sites: *const u32,
        released_call_site_count: usize,
        released_switches: *const u32,
        released_switch_count: usize,
        loaders: *mut u32,
        loader_capacity: usize,
        classes: *mut u32,
        class_capacity: usize,
        sites: *mut u32,
        site_capacity: usize,
        call_sites: *mut u32,
        call_site_capacity: usize,
        switches: *mut u32,
        switch_capacity: usize,
    ) -> u32;
    pub fn linkd_answer(at: *mut Opaque, line: *const u8, line_length: usize, length: *mut usize) -> u32;
    pub fn linkd_take(at: *mut Opaque, out: *mut u8, capacity: usize, length: *mut usize) -> u32;
    pub fn linkd_seat_size() -> usize;
    pub fn linkd_seat_align() -> usize;
    pub fn linkd_seat_blank(at: *mut Opaque);
    pub fn linkd_seat_refresh(at: *mut Opaque, from: *mut Opaque) -> u32;
    pub fn linkd_seat_answer(at: *mut Opaque, site: u32, receiver: u32) -> u64;
    pub fn linkd_seat_call_with(at: *mut Opaque, memo: *mut Opaque, site: u32, receiver: u32, answer: *mut Answer) -> u32;
    pub fn linkd_seat_leave(at: *mut Opaque);
    pub fn linkd_memo_size() -> usize;
    pub fn linkd_memo_align() -> usize;
    pub fn linkd_memo_blank(at: *mut Opaque);
    pub fn linkd_memo_open(at: *mut Opaque, sets: u32) -> u32;
    pub fn linkd_memo_ask(at: *mut Opaque, from: *mut Opaque, site: u32, receiver: u32, answer: *mut Answer) -> u32;
    pub fn linkd_memo_call(at: *mut Opaque, site: u32, receiver: u32, answer: *mut Answer) -> u32;
    pub fn linkd_memo_close(at: *mut Opaque);
    pub fn linkd_view_size() -> usize;
    pub fn linkd_view_align() -> usize;
    pub fn linkd_view_blank(at: *mut Opaque);
    pub fn linkd_view_take(at: *mut Opaque, from: *mut Opaque) -> u32;
    pub fn linkd_view_serial(at: *mut Opaque, serial: *mut u64) -> u32;
    pub fn linkd_view_call(at: *mut Opaque, site: u32, receiver: u32, answer: *mut Answer) -> u32;
    pub fn linkd_view_prepare(at: *mut Opaque, sites: *const u32, count: usize, links: *mut Link, capacity: usize, told: *mut Told) -> u32;
    pub fn linkd_view_leave(at: *mut Opaque);
    pub fn linkd_renewal_size() -> usize;
    pub fn linkd_renewal_align() -> usize;
    pub fn linkd_renewal_blank(at: *mut Opaque);
    pub fn linkd_renewal_begin_with(
        at: *mut Opaque,
        from: *mut Opaque,
        max_sites: u32,
        released_call_sites: *const u32,
        released_call_site_count: usize,
        released_switches: *const u32,
        released_switch_count: usize,
    ) -> u32;
    pub fn linkd_renewal_take(at: *mut Opaque, from: *mut Opaque, most: usize, left: *mut usize) -> u32;
    pub fn linkd_renewal_fill(at: *mut Opaque, told: *mut Told) -> u32;
    pub fn linkd_renewal_finish_into(
        at: *mut Opaque,
        from: *mut Opaque,
        fresh: *mut Opaque,
        told: *mut Told,
        loaders: *mut u32,
        loader_capacity: usize,
        classes: *mut u32,
        class_capacity: usize,
        sites: *mut u32,
        site_capacity: usize,
        call_sites: *mut u32,
        call_site_capacity: usize,
        switches: *mut u32,
        switch_capacity: usize,
    ) -> u32;
    pub fn linkd_renewal_leave(at: *mut Opaque);
}

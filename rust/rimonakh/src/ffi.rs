//! The archive's functions, as `include/rimonakh.h` declares them. None has a condition on its numbers; a pointer with its
//! length is a slice, and the slices of one call do not overlap. Types that are shared with the safe functions have the
//! layout of the header's.

use crate::{
    Context, Counts, Extensions, Guid, OrpcThat, OrpcThis, Pinged, Property, Reference, Resolved,
    Tally,
};

/// A call's header that was read.
#[repr(C)]
#[derive(Clone, Copy)]
pub struct ReadThis {
    /// The answer number.
    pub answer: u32,
    /// The header.
    pub header: OrpcThis,
    /// What it says of its extensions.
    pub extensions: Extensions,
    /// Its length with extensions, in bytes.
    pub length: usize,
}

/// A reply's header that was read.
#[repr(C)]
#[derive(Clone, Copy)]
pub struct ReadThat {
    /// The answer number.
    pub answer: u32,
    /// The header.
    pub header: OrpcThat,
    /// What it says of its extensions.
    pub extensions: Extensions,
    /// Its length with extensions, in bytes.
    pub length: usize,
}

/// An extension: its data stands from byte `from` up to and not with byte `to`.
#[repr(C)]
#[derive(Clone, Copy)]
pub struct Extension {
    /// The answer number.
    pub answer: u32,
    /// Its pointer number.
    pub pointer: u32,
    /// What it is.
    pub id: Guid,
    /// The first byte.
    pub from: usize,
    /// The byte behind the last.
    pub to: usize,
}

/// A part of bytes that were lent.
#[repr(C)]
#[derive(Clone, Copy)]
pub struct Place {
    /// The answer number.
    pub answer: u32,
    /// The first byte.
    pub from: usize,
    /// The byte behind the last.
    pub to: usize,
}

/// Where a walk stands.
#[repr(C)]
#[derive(Clone, Copy)]
pub struct Cursor {
    /// The answer number.
    pub answer: u32,
    /// Where the next item begins.
    pub at: usize,
    /// How much is left.
    pub left: usize,
}

/// An item of a walk, which goes on at `to` with `left`.
#[repr(C)]
#[derive(Clone, Copy)]
pub struct Step {
    /// The answer number.
    pub answer: u32,
    /// The first byte.
    pub from: usize,
    /// The byte behind the last.
    pub to: usize,
    /// How much is left.
    pub left: usize,
}

/// A property of a walk, which goes on at `to` with `left`.
#[repr(C)]
#[derive(Clone, Copy)]
pub struct PropertyStep {
    /// The answer number.
    pub answer: u32,
    /// Its fields.
    pub property: Property,
    /// The first byte.
    pub from: usize,
    /// The byte behind the last.
    pub to: usize,
    /// How much is left.
    pub left: usize,
}

/// Where a walk over extensions stands.
#[repr(C)]
#[derive(Clone, Copy)]
pub struct ExtensionCursor {
    /// The answer number.
    pub answer: u32,
    /// The byte of the next one's pointer.
    pub pointer: usize,
    /// The byte of the next one.
    pub at: usize,
    /// How much is left.
    pub left: usize,
}

/// An extension of a walk, which goes on at `pointer` and `at` with `left`.
#[repr(C)]
#[derive(Clone, Copy)]
pub struct ExtensionStep {
    /// The extension, or its refusal.
    pub extension: Extension,
    /// The byte of the next one's pointer.
    pub pointer: usize,
    /// The byte of the next one.
    pub at: usize,
    /// How much is left.
    pub left: usize,
}

/// A reference that was read.
#[repr(C)]
#[derive(Clone, Copy)]
pub struct ReadReference {
    /// The answer number.
    pub answer: u32,
    /// Its fixed fields.
    pub reference: Reference,
}

/// A context that was read.
#[repr(C)]
#[derive(Clone, Copy)]
pub struct ReadContext {
    /// The answer number.
    pub answer: u32,
    /// Its fields.
    pub context: Context,
}

/// A property that was read.
#[repr(C)]
#[derive(Clone, Copy)]
pub struct ReadProperty {
    /// The answer number.
    pub answer: u32,
    /// Its fields.
    pub property: Property,
}

/// What was written.
#[repr(C)]
#[derive(Clone, Copy)]
pub struct Written {
    /// The answer number.
    pub answer: u32,
    /// How many bytes.
    pub length: usize,
}

/// Numbers of each kind.
#[repr(C)]
#[derive(Clone, Copy)]
pub struct Counted {
    /// The answer number.
    pub answer: u32,
    /// How many.
    pub counts: Counts,
}

/// The number of a set's members.
#[repr(C)]
#[derive(Clone, Copy)]
pub struct MemberCount {
    /// The answer number.
    pub answer: u32,
    /// How many.
    pub count: usize,
}

/// What a release took.
#[repr(C)]
#[derive(Clone, Copy)]
pub struct Released {
    /// The answer number.
    pub answer: u32,
    /// Public references.
    pub public: u32,
    /// Private references of the client.
    pub private: u32,
    /// 1 where the interface went, else 0.
    pub interfaces: u32,
    /// 1 where the object went, else 0.
    pub objects: u32,
}

/// The set of a complex ping.
#[repr(C)]
#[derive(Clone, Copy)]
pub struct PingedSet {
    /// The answer number.
    pub answer: u32,
    /// Its number and the backoff factor.
    pub pinged: Pinged,
}

/// The list of a resolve.
#[repr(C)]
#[derive(Clone, Copy)]
pub struct ResolvedList {
    /// The answer number.
    pub answer: u32,
    /// Its length, and the exporter's remote-unknown IPID.
    pub resolved: Resolved,
}

/// Where the list of a next stop stands.
#[repr(C)]
#[derive(Clone, Copy)]
pub struct StopPlace {
    /// The answer number.
    pub answer: u32,
    /// Whether in the store, or else in the reference.
    pub in_store: bool,
    /// The first byte.
    pub from: usize,
    /// The byte behind the last.
    pub to: usize,
}

/// What a replay found.
#[repr(C)]
#[derive(Clone, Copy)]
pub struct Outcome {
    /// The answer number.
    pub answer: u32,
    /// The first record whose answer is not ours, from 1; 0 where there is none.
    pub differs: u32,
    /// The sums up to there.
    pub tally: Tally,
}

/// The records of a recording that are whole.
#[repr(C)]
#[derive(Clone, Copy)]
pub struct Prefix {
    /// How many.
    pub count: u64,
    /// The byte behind the last.
    pub end: usize,
}

/// The state between two fragments of a reference.
#[repr(C)]
#[derive(Clone, Copy, Debug, PartialEq, Eq)]
pub struct Fragments {
    /// The first bytes.
    pub head: [u8; 84],
    /// Bytes of the list or object data in the waiting buffer.
    pub kept: usize,
    /// Bytes that came, counted up to 131,155.
    pub seen: u32,
    /// The last byte.
    pub low: u8,
    /// Where the walk over the list's words stands.
    pub mode: u8,
    /// Whether more came than the waiting buffer holds.
    pub over: bool,
}

/// A reference that came in fragments.
#[repr(C)]
#[derive(Clone, Copy)]
pub struct Finished {
    /// The answer number.
    pub answer: u32,
    /// Its fixed fields.
    pub reference: Reference,
    /// The length of its list or object data, in bytes.
    pub length: usize,
}

extern "C" {
    /// See [`version`](crate::version).
    pub fn rimonakh_version() -> u32;
    /// See [`wire_code`](crate::wire_code).
    pub fn rimonakh_wire_code(number: u32) -> u32;

    /// See [`OrpcThis::read`](crate::OrpcThis::read).
    pub fn rimonakh_this_read(bytes: *const u8, bytes_len: usize) -> ReadThis;
    /// See [`OrpcThis::extension`](crate::OrpcThis::extension).
    pub fn rimonakh_this_extension(bytes: *const u8, bytes_len: usize, k: usize) -> Extension;
    /// See [`OrpcThis::write`](crate::OrpcThis::write).
    pub fn rimonakh_this_write(
        minor: u16,
        flags: u32,
        causality_low: u64,
        causality_high: u64,
        buffer: *mut u8,
        buffer_len: usize,
    ) -> u32;
    /// See [`OrpcThis::write_with`](crate::OrpcThis::write_with).
    pub fn rimonakh_this_write_extensions(
        minor: u16,
        flags: u32,
        causality_low: u64,
        causality_high: u64,
        pointer: u32,
        array: u32,
        entries: *const u64,
        entries_len: usize,
        contents: *const u8,
        contents_len: usize,
        buffer: *mut u8,
        buffer_len: usize,
    ) -> Written;
    /// See [`OrpcThat::read`](crate::OrpcThat::read).
    pub fn rimonakh_that_read(bytes: *const u8, bytes_len: usize) -> ReadThat;
    /// See [`OrpcThat::extension`](crate::OrpcThat::extension).
    pub fn rimonakh_that_extension(bytes: *const u8, bytes_len: usize, k: usize) -> Extension;
    /// See [`OrpcThat::write`](crate::OrpcThat::write).
    pub fn rimonakh_that_write(flags: u32, buffer: *mut u8, buffer_len: usize) -> u32;
    /// See [`OrpcThat::write_with`](crate::OrpcThat::write_with).
    pub fn rimonakh_that_write_extensions(
        flags: u32,
        pointer: u32,
        array: u32,
        entries: *const u64,
        entries_len: usize,
        contents: *const u8,
        contents_len: usize,
        buffer: *mut u8,
        buffer_len: usize,
    ) -> Written;

    /// See [`list::judge`](crate::list::judge).
    pub fn rimonakh_list_answer(bytes: *const u8, bytes_len: usize) -> u32;
    /// See [`list::front`](crate::list::front).
    pub fn rimonakh_list_front_answer(bytes: *const u8, bytes_len: usize) -> u32;
    /// See [`list::front`](crate::list::front).
    pub fn rimonakh_list_front_length(bytes: *const u8, bytes_len: usize) -> usize;
    /// See [`list::locate`](crate::list::locate).
    pub fn rimonakh_list_string_binding(bytes: *const u8, bytes_len: usize, k: usize) -> Place;
    /// See [`list::locate`](crate::list::locate).
    pub fn rimonakh_list_security_binding(bytes: *const u8, bytes_len: usize, k: usize) -> Place;

    /// See [`list::write`](crate::list::write).
    pub fn rimonakh_list_write(
        strings: *const u16,
        strings_len: usize,
        security: *const u16,
        security_len: usize,
        buffer: *mut u8,
        buffer_len: usize,
    ) -> Written;

    /// See [`Reference::judge`](crate::Reference::judge).
    pub fn rimonakh_reference_answer(bytes: *const u8, bytes_len: usize) -> u32;
    /// See [`Reference::read`](crate::Reference::read).
    pub fn rimonakh_reference_read(bytes: *const u8, bytes_len: usize) -> ReadReference;
    /// See [`Reference::tail`](crate::Reference::tail).
    pub fn rimonakh_reference_tail(bytes: *const u8, bytes_len: usize) -> Place;
    /// See [`Reference::locate`](crate::Reference::locate).
    pub fn rimonakh_reference_string_binding(bytes: *const u8, bytes_len: usize, k: usize)
        -> Place;
    /// See [`Reference::locate`](crate::Reference::locate).
    pub fn rimonakh_reference_security_binding(
        bytes: *const u8,
        bytes_len: usize,
        k: usize,
    ) -> Place;
    /// See [`Reference::locate_element`](crate::Reference::locate_element).
    pub fn rimonakh_reference_element(bytes: *const u8, bytes_len: usize, k: usize) -> Place;
    /// See [`Reference::locate_property`](crate::Reference::locate_property).
    pub fn rimonakh_reference_property(bytes: *const u8, bytes_len: usize, k: usize) -> Place;
    /// See [`Reference::write`](crate::Reference::write).
    pub fn rimonakh_reference_write(
        flags: u32,
        iid_low: u64,
        iid_high: u64,
        block_flags: u32,
        public: u32,
        oxid: u64,
        oid: u64,
        ipid_low: u64,
        ipid_high: u64,
        clsid_low: u64,
        clsid_high: u64,
        extension: u32,
        size: u32,
        element_low: u64,
        element_high: u64,
        tail: *const u8,
        tail_len: usize,
        content: *const u8,
        content_len: usize,
        buffer: *mut u8,
        buffer_len: usize,
    ) -> Written;

    /// See [`Context::read`](crate::Context::read).
    pub fn rimonakh_context_read(bytes: *const u8, bytes_len: usize) -> ReadContext;
    /// See [`Property::read`](crate::Property::read).
    pub fn rimonakh_context_property(bytes: *const u8, bytes_len: usize, k: usize) -> ReadProperty;
    /// See [`Context::write`](crate::Context::write).
    pub fn rimonakh_context_write(
        id_low: u64,
        id_high: u64,
        reserved: u32,
        marshal: u32,
        count: u32,
        frozen: u32,
        properties: *const u8,
        properties_len: usize,
        buffer: *mut u8,
        buffer_len: usize,
    ) -> Written;
    /// See [`Property::write`](crate::Property::write).
    pub fn rimonakh_property_write(
        clsid_low: u64,
        clsid_high: u64,
        policy_low: u64,
        policy_high: u64,
        flags: u32,
        content: *const u8,
        content_len: usize,
        buffer: *mut u8,
        buffer_len: usize,
    ) -> Written;

    /// See [`Table::reset`](crate::Table::reset).
    pub fn rimonakh_reset(
        words: *mut u64,
        words_len: usize,
        store: *const u8,
        store_len: usize,
        time: u64,
    ) -> u32;
    /// See [`Table::census`](crate::Table::census).
    pub fn rimonakh_census(
        words: *const u64,
        words_len: usize,
        store: *const u8,
        store_len: usize,
    ) -> Counted;
    /// See [`Table::members`](crate::Table::members).
    pub fn rimonakh_members(
        words: *const u64,
        words_len: usize,
        store: *const u8,
        store_len: usize,
        set: u64,
    ) -> MemberCount;
    /// See [`Table::enter_exporter`](crate::Table::enter_exporter).
    pub fn rimonakh_enter_exporter(
        words: *mut u64,
        words_len: usize,
        store: *mut u8,
        store_len: usize,
        oxid: u64,
        unknown_low: u64,
        unknown_high: u64,
        list: *const u8,
        list_len: usize,
    ) -> u32;
    /// See [`Table::remove_exporter`](crate::Table::remove_exporter).
    pub fn rimonakh_remove_exporter(
        words: *mut u64,
        words_len: usize,
        store: *mut u8,
        store_len: usize,
        oxid: u64,
    ) -> u32;
    /// See [`Table::enter_object`](crate::Table::enter_object).
    pub fn rimonakh_enter_object(
        words: *mut u64,
        words_len: usize,
        store: *const u8,
        store_len: usize,
        oid: u64,
        oxid: u64,
        ipid_low: u64,
        ipid_high: u64,
        iid_low: u64,
        iid_high: u64,
        public: u32,
        no_ping: bool,
    ) -> u32;
    /// See [`Table::enter_interface`](crate::Table::enter_interface).
    pub fn rimonakh_enter_interface(
        words: *mut u64,
        words_len: usize,
        store: *const u8,
        store_len: usize,
        oid: u64,
        ipid_low: u64,
        ipid_high: u64,
        iid_low: u64,
        iid_high: u64,
        public: u32,
    ) -> u32;
    /// See [`Table::add`](crate::Table::add).
    pub fn rimonakh_add(
        words: *mut u64,
        words_len: usize,
        store: *const u8,
        store_len: usize,
        client: u32,
        ipid_low: u64,
        ipid_high: u64,
        public: u32,
        private: u32,
    ) -> u32;
    /// See [`Table::release`](crate::Table::release).
    pub fn rimonakh_release(
        words: *mut u64,
        words_len: usize,
        store: *const u8,
        store_len: usize,
        client: u32,
        ipid_low: u64,
        ipid_high: u64,
        public: u32,
        private: u32,
    ) -> Released;
    /// See [`Table::add_list`](crate::Table::add_list).
    pub fn rimonakh_add_list(
        words: *mut u64,
        words_len: usize,
        store: *const u8,
        store_len: usize,
        client: u32,
        items: *const u8,
        items_len: usize,
        results: *mut u8,
        results_len: usize,
    ) -> u32;
    /// See [`Table::release_list`](crate::Table::release_list).
    pub fn rimonakh_release_list(
        words: *mut u64,
        words_len: usize,
        store: *const u8,
        store_len: usize,
        client: u32,
        items: *const u8,
        items_len: usize,
        results: *mut u8,
        results_len: usize,
    ) -> u32;
    /// See [`Table::drop_client`](crate::Table::drop_client).
    pub fn rimonakh_drop_client(
        words: *mut u64,
        words_len: usize,
        store: *const u8,
        store_len: usize,
        client: u32,
    ) -> u32;
    /// See [`Table::simple_ping`](crate::Table::simple_ping).
    pub fn rimonakh_simple_ping(
        words: *mut u64,
        words_len: usize,
        store: *const u8,
        store_len: usize,
        set: u64,
    ) -> u32;
    /// See [`Table::complex_ping`](crate::Table::complex_ping).
    pub fn rimonakh_complex_ping(
        words: *mut u64,
        words_len: usize,
        store: *const u8,
        store_len: usize,
        set: u64,
        sequence: u16,
        adds: *const u64,
        adds_len: usize,
        deletes: *const u64,
        deletes_len: usize,
    ) -> PingedSet;
    /// See [`Table::clock`](crate::Table::clock).
    pub fn rimonakh_clock(
        words: *mut u64,
        words_len: usize,
        store: *const u8,
        store_len: usize,
        time: u64,
    ) -> Counted;
    /// See [`Table::resolve`](crate::Table::resolve).
    pub fn rimonakh_resolve(
        words: *const u64,
        words_len: usize,
        store: *const u8,
        store_len: usize,
        oxid: u64,
        buffer: *mut u8,
        buffer_len: usize,
    ) -> ResolvedList;
    /// See [`Table::resolve_filtered`](crate::Table::resolve_filtered).
    pub fn rimonakh_resolve_filtered(
        words: *const u64,
        words_len: usize,
        store: *const u8,
        store_len: usize,
        oxid: u64,
        protocols: *const u16,
        protocols_len: usize,
        buffer: *mut u8,
        buffer_len: usize,
    ) -> ResolvedList;
    /// See [`Table::next_stop`](crate::Table::next_stop).
    pub fn rimonakh_next_stop(
        words: *const u64,
        words_len: usize,
        store: *const u8,
        store_len: usize,
        reference: *const u8,
        reference_len: usize,
    ) -> StopPlace;
    /// See [`Table::write_snapshot`](crate::Table::write_snapshot).
    pub fn rimonakh_write_snapshot(
        words: *const u64,
        words_len: usize,
        store: *const u8,
        store_len: usize,
        buffer: *mut u8,
        buffer_len: usize,
    ) -> Written;
    /// See [`Table::load_snapshot`](crate::Table::load_snapshot).
    pub fn rimonakh_load_snapshot(
        words: *mut u64,
        words_len: usize,
        store: *mut u8,
        store_len: usize,
        snapshot: *const u8,
        snapshot_len: usize,
    ) -> u32;
    /// See [`Table::replay`](crate::Table::replay).
    pub fn rimonakh_replay(
        words: *mut u64,
        words_len: usize,
        store: *mut u8,
        store_len: usize,
        recording: *const u8,
        recording_len: usize,
    ) -> Outcome;
    /// See [`recording::whole`](crate::recording::whole()).
    pub fn rimonakh_whole_records(recording: *const u8, recording_len: usize) -> Prefix;

    /// See [`list::places`](crate::list::places).
    pub fn rimonakh_list_strings(bytes: *const u8, bytes_len: usize) -> Cursor;
    /// See [`list::places`](crate::list::places).
    pub fn rimonakh_list_securities(bytes: *const u8, bytes_len: usize) -> Cursor;
    /// See [`list::places`](crate::list::places).
    pub fn rimonakh_list_next_string(
        bytes: *const u8,
        bytes_len: usize,
        at: usize,
        left: usize,
    ) -> Step;
    /// See [`list::places`](crate::list::places).
    pub fn rimonakh_list_next_security(
        bytes: *const u8,
        bytes_len: usize,
        at: usize,
        left: usize,
    ) -> Step;
    /// See [`Property::all`](crate::Property::all).
    pub fn rimonakh_context_properties(bytes: *const u8, bytes_len: usize) -> Cursor;
    /// See [`Property::all`](crate::Property::all).
    pub fn rimonakh_context_next_property(
        bytes: *const u8,
        bytes_len: usize,
        at: usize,
        left: usize,
    ) -> PropertyStep;
    /// See [`OrpcThis::extensions`](crate::OrpcThis::extensions).
    pub fn rimonakh_this_extensions(bytes: *const u8, bytes_len: usize) -> ExtensionCursor;
    /// See [`OrpcThat::extensions`](crate::OrpcThat::extensions).
    pub fn rimonakh_that_extensions(bytes: *const u8, bytes_len: usize) -> ExtensionCursor;
    /// See [`OrpcThis::extensions`](crate::OrpcThis::extensions).
    pub fn rimonakh_next_extension(
        bytes: *const u8,
        bytes_len: usize,
        pointer: usize,
        at: usize,
        left: usize,
    ) -> ExtensionStep;
    /// See [`FragmentReader::new`](crate::FragmentReader::new).
    pub fn rimonakh_fragments_none() -> Fragments;
    /// See [`FragmentReader::push`](crate::FragmentReader::push).
    pub fn rimonakh_fragments_push(
        state: Fragments,
        waiting: *mut u8,
        waiting_len: usize,
        fragment: *const u8,
        fragment_len: usize,
    ) -> Fragments;
    /// See [`FragmentReader::finish`](crate::FragmentReader::finish).
    pub fn rimonakh_fragments_finish(
        state: Fragments,
        waiting: *const u8,
        waiting_len: usize,
        last: *mut u8,
        last_len: usize,
    ) -> Finished;
}

//! The C exports of the library, as `include/pavrenni.h` declares them: the one place where this crate says so.
//!
//! A slice crosses as its pointer and its length in entries, a slice of arrays as a pointer to these rows and their
//! number. [`crate::raw`] has the same calls over slices, and needs no `unsafe`.
//!
//! Safety. A call asks this of its caller and nothing else. Each pointer is aligned for its entries and not null, also
//! where the length is 0. It is valid for its length: for reading, and for writing where the call writes. What a call
//! writes overlaps nothing else that it is lent. The entries of a `bool` slice are 0 or 1, in scratch too. Counts,
//! lengths, tables and lists are checked, and what is wrong is refused with a code. Calls are reentrant: nothing is
//! kept between them, and calls on memory of their own may run at the same time.

// ---- answers: a code and its values, then what the call tells

macro_rules! answer {
    ($(#[$about:meta])* $name:ident { $($(#[$told:meta])* $field:ident: $kind:ty),* $(,)? }) => {
        $(#[$about])*
        #[must_use]
        #[repr(C)]
        #[derive(Clone, Copy, Debug, PartialEq)]
        pub struct $name {
            /// 0, or the number of a [`Code`](crate::Code).
            pub code: u32,
            /// The first value that the code names; 0 where it names none.
            pub first: usize,
            /// The second value that the code names; 0 where it names none.
            pub second: usize,
            $($(#[$told])* pub $field: $kind),*
        }
    };
}

answer! {
    /// What [`pavrenni_decompose`] answers: the counts of the model that it left, 0 after a refusal.
    #[derive(Eq)]
    Model {
        /// Of mechanisms.
        mechanisms: usize,
        /// Of components.
        components: usize,
        /// Of list entries.
        entries: usize,
    }
}

answer! {
    /// What [`pavrenni_compile`] answers.
    #[derive(Eq)]
    Graph {
        /// The number of edges, 0 after a refusal.
        edges: usize,
    }
}

answer! {
    /// What [`pavrenni_decode_shot`] answers.
    #[derive(Eq)]
    Shot {
        /// The rounds finished, after Stuck too.
        rounds: u32,
        /// The length of the list, 0 after a refusal.
        length: usize,
    }
}

answer! {
    /// What [`pavrenni_decode_batch`] answers.
    #[derive(Eq)]
    Batch {}
}

answer! {
    /// What [`pavrenni_mark`] answers.
    #[derive(Eq)]
    Mark {
        /// 1 where the list passes, else 0.
        passed: u32,
        /// The lowest wrong detector where the code is 0 and the list does not pass, else 0.
        detector: u32,
    }
}

answer! {
    /// What [`pavrenni_rate`] answers.
    Rate {
        /// The rate, 0 after a refusal.
        rate: f64,
    }
}

// ---- lengths of scratch slices

macro_rules! lengths {
    ($(#[$about:meta])* $name:ident of $scratch:ident { $($slice:ident),* $(,)? }) => {
        $(#[$about])*
        #[must_use]
        #[repr(C)]
        #[derive(Clone, Copy, Debug, PartialEq, Eq)]
        pub struct $name {
            $(
                #[doc = concat!("Of [`", stringify!($slice), "`](crate::raw::", stringify!($scratch), "::", stringify!($slice), ").")]
                pub $slice: usize,
            )*
        }
    };
}

lengths! {
    /// The least lengths of the decoder's scratch slices: entries, or rows.
    Lengths of Scratch { adj_offsets, adj, tree, flags, stacks, links, growth, sat }
}

lengths! {
    /// The least lengths of the scratch slices of decomposition.
    DecomposeLengths of DecomposeScratch { starts, before, last_of, first_of, next_of, numbers, masks, words0, words1, earlier }
}

lengths! {
    /// The least lengths of the scratch slices of compiling.
    CompileLengths of CompileScratch { edge_p, first, next }
}

lengths! {
    /// The least lengths of the marker's scratch slices.
    MarkLengths of MarkScratch { marks, wrong }
}

extern "C" {
    /// What [`raw::lengths`](crate::raw::lengths) calls. No pointer crosses.
    pub fn pavrenni_lengths_for(detectors: usize, edges: usize) -> Lengths;
    /// What [`raw::decompose_lengths`](crate::raw::decompose_lengths) calls. No pointer crosses.
    pub fn pavrenni_decompose_lengths_for(detectors: usize, mechanisms: usize) -> DecomposeLengths;
    /// What [`raw::compile_lengths`](crate::raw::compile_lengths) calls. No pointer crosses.
    pub fn pavrenni_compile_lengths_for(detectors: usize, mechanisms: usize) -> CompileLengths;
    /// What [`raw::mark_lengths`](crate::raw::mark_lengths) calls. No pointer crosses.
    pub fn pavrenni_mark_lengths_for(detectors: usize, edges: usize) -> MarkLengths;
}

// ---- calls: parameters that several of them have are written once

/// The counts of a lent graph.
#[repr(C)]
#[derive(Clone, Copy, Debug, PartialEq, Eq)]
pub struct Size {
    /// Of detectors.
    pub detectors: usize,
    /// Of observables.
    pub observables: usize,
    /// Of edges.
    pub edges: usize,
}

/// A call on a model in tables: three counts, seven tables, then its own parameters.
macro_rules! on_model {
    ($(#[$about:meta])* $name:ident($($own:ident: $kind:ty),* $(,)?) -> $answer:ty) => {
        extern "C" {
            $(#[$about])*
            pub fn $name(
                detectors: usize,
                observables: usize,
                mechanisms: usize,
                probability: *const f64,
                probability_len: usize,
                detector_counts: *const u8,
                detector_counts_len: usize,
                observable_counts: *const u8,
                observable_counts_len: usize,
                component_counts: *const u8,
                component_counts_len: usize,
                component_detectors: *const u8,
                component_detectors_len: usize,
                component_observables: *const u8,
                component_observables_len: usize,
                entries: *const u32,
                entries_len: usize,
                $($own: $kind),*
            ) -> $answer;
        }
    };
}

/// A call on a lent graph: its counts, four tables, then its own parameters.
macro_rules! on_graph {
    ($(#[$about:meta])* $name:ident($($own:ident: $kind:ty),* $(,)?) -> $answer:ty) => {
        extern "C" {
            $(#[$about])*
            pub fn $name(
                size: Size,
                edge_u: *const u32,
                edge_u_len: usize,
                edge_v: *const u32,
                edge_v_len: usize,
                edge_weight: *const f64,
                edge_weight_len: usize,
                edge_obs: *const u64,
                edge_obs_len: usize,
                $($own: $kind),*
            ) -> $answer;
        }
    };
}

/// A call on a lent graph that decodes: what it writes, the scratch slices, the graph, then what it reads.
macro_rules! decoding {
    ($(#[$about:meta])* $name:ident($($own:ident: $kind:ty),* $(,)?; $($read:ident: $given:ty),* $(,)?) -> $answer:ty) => {
        extern "C" {
            $(#[$about])*
            pub fn $name(
                $($own: $kind,)*
                adj_offsets: *mut u32,
                adj_offsets_len: usize,
                adj: *mut [u32; 2],
                adj_len: usize,
                tree: *mut [u32; 2],
                tree_len: usize,
                flags: *mut [bool; 8],
                flags_len: usize,
                stacks: *mut [u32; 6],
                stacks_len: usize,
                links: *mut [u32; 4],
                links_len: usize,
                growth: *mut f64,
                growth_len: usize,
                sat: *mut bool,
                sat_len: usize,
                size: Size,
                edge_u: *const u32,
                edge_u_len: usize,
                edge_v: *const u32,
                edge_v_len: usize,
                edge_weight: *const f64,
                edge_weight_len: usize,
                edge_obs: *const u64,
                edge_obs_len: usize,
                $($read: $given),*
            ) -> $answer;
        }
    };
}

on_model! {
    /// What [`raw::decompose`](crate::raw::decompose) calls.
    pavrenni_decompose(
        out_probability: *mut f64,
        out_probability_len: usize,
        out_detector_counts: *mut u8,
        out_detector_counts_len: usize,
        out_observable_counts: *mut u8,
        out_observable_counts_len: usize,
        out_component_counts: *mut u8,
        out_component_counts_len: usize,
        out_component_detectors: *mut u8,
        out_component_detectors_len: usize,
        out_component_observables: *mut u8,
        out_component_observables_len: usize,
        out_entries: *mut u32,
        out_entries_len: usize,
        starts: *mut u32,
        starts_len: usize,
        before: *mut u32,
        before_len: usize,
        last_of: *mut u32,
        last_of_len: usize,
        first_of: *mut u32,
        first_of_len: usize,
        next_of: *mut u32,
        next_of_len: usize,
        numbers: *mut u32,
        numbers_len: usize,
        masks: *mut u16,
        masks_len: usize,
        words0: *mut u64,
        words0_len: usize,
        words1: *mut u64,
        words1_len: usize,
        earlier: *mut u32,
        earlier_len: usize,
    ) -> Model
}

on_model! {
    /// What [`raw::compile`](crate::raw::compile) calls.
    pavrenni_compile(
        edge_u: *mut u32,
        edge_u_len: usize,
        edge_v: *mut u32,
        edge_v_len: usize,
        edge_weight: *mut f64,
        edge_weight_len: usize,
        edge_obs: *mut u64,
        edge_obs_len: usize,
        edge_p: *mut f64,
        edge_p_len: usize,
        first: *mut u32,
        first_len: usize,
        next: *mut u32,
        next_len: usize,
    ) -> Graph
}

decoding! {
    /// What [`raw::decode_shot`](crate::raw::decode_shot) calls.
    pavrenni_decode_shot(
        row: *mut u64,
        row_len: usize,
        list: *mut u32,
        list_len: usize,
        ;
        shot: *const u64,
        shot_len: usize,
        width: usize,
    ) -> Shot
}

decoding! {
    /// What [`raw::decode_batch`](crate::raw::decode_batch) calls.
    pavrenni_decode_batch(
        out: *mut u64,
        out_len: usize,
        list: *mut u32,
        list_len: usize,
        ;
        rows: *const u64,
        rows_len: usize,
        shots: usize,
        width: usize,
    ) -> Batch
}

on_graph! {
    /// What [`raw::mark`](crate::raw::mark) calls.
    pavrenni_mark(
        shot: *const u64,
        shot_len: usize,
        width: usize,
        list: *const u32,
        list_len: usize,
        row: *mut u64,
        row_len: usize,
        marks: *mut u64,
        marks_len: usize,
        wrong: *mut u64,
        wrong_len: usize,
    ) -> Mark
}

decoding! {
    /// What [`raw::rate`](crate::raw::rate) calls.
    pavrenni_rate(
        out: *mut u64,
        out_len: usize,
        list: *mut u32,
        list_len: usize,
        ;
        rows: *const u64,
        rows_len: usize,
        shots: usize,
        width: usize,
        truth: *const u64,
        truth_len: usize,
        true_shots: usize,
        true_width: usize,
    ) -> Rate
}

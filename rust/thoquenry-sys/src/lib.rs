//! The functions of `include/thoquenry.h` as they are. The header documents each: its answer, its refusals and the layout of its buffers.
//!
//! Each function takes whatever numbers it is handed. What a caller owes is what C cannot check: behind a pointer stand as many elements as
//! the length after it says, which nothing else writes during the call. The pointer of a buffer of no elements may be null.
//!
//! The crate `thoquenry` has safe functions over these.

#![no_std]

#[cfg(not(all(target_arch = "x86_64", target_os = "linux")))]
compile_error!("libthoquenry is for x86-64 Linux");

/// The version of the header that these are the declarations of; [`thq_version`] gives the library's.
pub const THQ_VERSION_NUMBER: u64 = 500;

/// The readings.
pub const THQ_2009: u64 = 2009;
pub const THQ_2015: u64 = 2015;

/// The refusals' numbers, each by its name: the remainder of an answer by 256. The crate `thoquenry` has their words.
pub const THQ_REFUSED_LOOP_TOO_LONG: u64 = 1;
pub const THQ_REFUSED_DOES_NOT_FIT: u64 = 2;
pub const THQ_REFUSED_REPEATED_PID: u64 = 3;
pub const THQ_REFUSED_WRONG_LENGTH: u64 = 4;
pub const THQ_REFUSED_SECOND_RECORD: u64 = 5;
pub const THQ_REFUSED_TYPE_NOT_ALLOWED: u64 = 6;
pub const THQ_REFUSED_WRONG_FLAGS: u64 = 7;
pub const THQ_REFUSED_REPEATED_LAYER_INDEX: u64 = 8;
pub const THQ_REFUSED_WRONG_EMBEDDED_INDEX: u64 = 9;
pub const THQ_REFUSED_NO_SUCH_LAYER: u64 = 11;
pub const THQ_REFUSED_EMBEDDED_LAYER_ABSENT: u64 = 12;
pub const THQ_REFUSED_OUT_OF_RANGE: u64 = 13;
pub const THQ_REFUSED_TIME_ORDER_BROKEN: u64 = 14;
pub const THQ_REFUSED_UNPAIRED: u64 = 15;
pub const THQ_REFUSED_USED_TWICE: u64 = 16;
pub const THQ_REFUSED_NO_ROOM: u64 = 17;
pub const THQ_REFUSED_SPAN_TOO_WIDE: u64 = 18;
pub const THQ_REFUSED_NOT_VIDEO_HEADER: u64 = 20;
pub const THQ_REFUSED_NO_PTS: u64 = 21;
pub const THQ_REFUSED_FIELDS_DO_NOT_FIT: u64 = 22;
pub const THQ_REFUSED_WRONG_MARKER: u64 = 23;
pub const THQ_REFUSED_PTS_BEFORE_DTS: u64 = 24;
pub const THQ_REFUSED_TOO_WIDE: u64 = 25;
pub const THQ_REFUSED_LOST_SYNC: u64 = 30;
pub const THQ_REFUSED_COUNTER_GAP: u64 = 31;
pub const THQ_REFUSED_OUTSIDE_PACKET: u64 = 32;
pub const THQ_REFUSED_SCRAMBLED: u64 = 33;
pub const THQ_REFUSED_POINTS_DO_NOT_FIT: u64 = 40;
pub const THQ_REFUSED_RESERVED_ES_COUNT: u64 = 41;
pub const THQ_REFUSED_UNKNOWN_REFERENCE: u64 = 42;
pub const THQ_REFUSED_NOT_STEREO_SET: u64 = 44;
pub const THQ_REFUSED_WRONG_MVC_EXTENSION: u64 = 45;
pub const THQ_REFUSED_RANGES_MEET: u64 = 46;

/// The number of the refusal of a reading that is neither, and of buffers that hold no layer set, or no recording.
pub const THQ_NOT_A_CALL: u64 = 255;

/// What number 2 of an entry says.
pub const THQ_NO_RECORD: u16 = 0;
pub const THQ_HIERARCHY: u16 = 1;
pub const THQ_EXTENSION: u16 = 2;
pub const THQ_IMPLIED: u16 = 3;

/// The numbers that one entry takes.
pub const THQ_ENTRY_NUMBERS: usize = 80;

/// The bytes of a transport packet.
pub const THQ_PACKET_BYTES: usize = 188;

/// The bytes and the numbers of the two buffers of a recording in pieces.
pub const THQ_PACKETS_STATE: usize = 20412;
pub const THQ_PACKETS_COUNTS: usize = 72;

/// The numbers that one MVC extension descriptor takes.
pub const THQ_MVC_EXTENSION_NUMBERS: usize = 8;

/// The numbers that one operation point takes.
pub const THQ_POINT_NUMBERS: usize = 12;

/// The numbers of the two buffers of a layer set.
pub const THQ_SET_LAYERS: usize = 5120;
pub const THQ_SET_STORED: usize = 192;

#[link(name = "thoquenry", kind = "static")]
extern "C" {
    pub fn thq_version() -> u64;

    pub fn thq_read_loop(
        reading: u64,
        bytes: *const u8,
        bytes_length: usize,
        entries: *mut u16,
        entries_length: usize,
    ) -> u64;

    pub fn thq_write_loop(
        entries: *const u16,
        entries_length: usize,
        out: *mut u8,
        out_length: usize,
    ) -> u64;

    pub fn thq_closure(
        reading: u64,
        bytes: *const u8,
        bytes_length: usize,
        target: u64,
        set: *mut u64,
        set_length: usize,
    ) -> u64;

    pub fn thq_read_times(
        bytes: *const u8,
        bytes_length: usize,
        times: *mut u64,
        times_length: usize,
    ) -> u64;

    pub fn thq_write_times(
        pts: u64,
        decoding: u64,
        matching: u64,
        with_tref: u64,
        out: *mut u8,
        out_length: usize,
    ) -> u64;

    pub fn thq_join(
        present: u64,
        embedded: *const u64,
        embedded_length: usize,
        target: u64,
        indices: *const u8,
        indices_length: usize,
        decodings: *const u64,
        decodings_length: usize,
        matches: *const u64,
        matches_length: usize,
        numbers: *mut u64,
        numbers_length: usize,
        lags: *mut i64,
        lags_length: usize,
        sizes: *mut u64,
        sizes_length: usize,
        summary: *mut u64,
        summary_length: usize,
    ) -> u64;

    pub fn thq_join_long(
        present: u64,
        embedded: *const u64,
        embedded_length: usize,
        target: u64,
        indices: *const u8,
        indices_length: usize,
        decodings: *const u64,
        decodings_length: usize,
        matches: *const u64,
        matches_length: usize,
        order: *mut usize,
        order_length: usize,
        keys: *mut u64,
        keys_length: usize,
        kept: *mut usize,
        kept_length: usize,
        places: *mut usize,
        places_length: usize,
        heads: *mut usize,
        heads_length: usize,
        claimed: *mut bool,
        claimed_length: usize,
        used: *mut bool,
        used_length: usize,
        numbers: *mut u64,
        numbers_length: usize,
        lags: *mut i64,
        lags_length: usize,
        sizes: *mut u64,
        sizes_length: usize,
        summary: *mut u64,
        summary_length: usize,
    ) -> u64;

    pub fn thq_import(
        reading: u64,
        bytes: *const u8,
        bytes_length: usize,
        target: u64,
        indices: *const u8,
        indices_length: usize,
        decodings: *const u64,
        decodings_length: usize,
        matches: *const u64,
        matches_length: usize,
        numbers: *mut u64,
        numbers_length: usize,
        lags: *mut i64,
        lags_length: usize,
        sizes: *mut u64,
        sizes_length: usize,
        summary: *mut u64,
        summary_length: usize,
    ) -> u64;

    pub fn thq_packets_rows(
        bytes: *const u8,
        bytes_length: usize,
        packets: *const u8,
        packets_length: usize,
        starts: *mut u64,
        starts_length: usize,
        indices: *mut u8,
        indices_length: usize,
        decodings: *mut u64,
        decodings_length: usize,
        matches: *mut u64,
        matches_length: usize,
        trefs: *mut u8,
        trefs_length: usize,
        numbers: *mut u64,
        numbers_length: usize,
    ) -> u64;

    pub fn thq_packets_import(
        bytes: *const u8,
        bytes_length: usize,
        target: u64,
        packets: *const u8,
        packets_length: usize,
        numbers: *mut u64,
        numbers_length: usize,
        lags: *mut i64,
        lags_length: usize,
        sizes: *mut u64,
        sizes_length: usize,
        summary: *mut u64,
        summary_length: usize,
    ) -> u64;

    pub fn thq_packets_import_long(
        bytes: *const u8,
        bytes_length: usize,
        target: u64,
        packets: *const u8,
        packets_length: usize,
        indices: *mut u8,
        indices_length: usize,
        decodings: *mut u64,
        decodings_length: usize,
        matches: *mut u64,
        matches_length: usize,
        trefs: *mut u8,
        trefs_length: usize,
        packet_numbers: *mut u64,
        packet_numbers_length: usize,
        order: *mut usize,
        order_length: usize,
        keys: *mut u64,
        keys_length: usize,
        kept: *mut usize,
        kept_length: usize,
        places: *mut usize,
        places_length: usize,
        heads: *mut usize,
        heads_length: usize,
        claimed: *mut bool,
        claimed_length: usize,
        used: *mut bool,
        used_length: usize,
        numbers: *mut u64,
        numbers_length: usize,
        lags: *mut i64,
        lags_length: usize,
        sizes: *mut u64,
        sizes_length: usize,
        summary: *mut u64,
        summary_length: usize,
    ) -> u64;

    pub fn thq_packets_start(
        bytes: *const u8,
        bytes_length: usize,
        state: *mut u8,
        state_length: usize,
        counts: *mut u64,
        counts_length: usize,
    ) -> u64;

    pub fn thq_packets_feed(
        piece: *const u8,
        piece_length: usize,
        state: *mut u8,
        state_length: usize,
        counts: *mut u64,
        counts_length: usize,
        indices: *mut u8,
        indices_length: usize,
        decodings: *mut u64,
        decodings_length: usize,
        matches: *mut u64,
        matches_length: usize,
        trefs: *mut u8,
        trefs_length: usize,
        numbers: *mut u64,
        numbers_length: usize,
    ) -> u64;

    pub fn thq_packets_told(
        state: *const u8,
        state_length: usize,
        counts: *const u64,
        counts_length: usize,
    ) -> u64;

    pub fn thq_packets_units(
        bytes: *const u8,
        bytes_length: usize,
        target: u64,
        state: *const u8,
        state_length: usize,
        counts: *const u64,
        counts_length: usize,
        indices: *const u8,
        indices_length: usize,
        decodings: *const u64,
        decodings_length: usize,
        matches: *const u64,
        matches_length: usize,
        order: *mut usize,
        order_length: usize,
        keys: *mut u64,
        keys_length: usize,
        kept: *mut usize,
        kept_length: usize,
        places: *mut usize,
        places_length: usize,
        heads: *mut usize,
        heads_length: usize,
        claimed: *mut bool,
        claimed_length: usize,
        used: *mut bool,
        used_length: usize,
        numbers: *mut u64,
        numbers_length: usize,
        lags: *mut i64,
        lags_length: usize,
        sizes: *mut u64,
        sizes_length: usize,
        summary: *mut u64,
        summary_length: usize,
    ) -> u64;

    pub fn thq_read_stereo(
        bytes: *const u8,
        bytes_length: usize,
        entries: *mut u16,
        entries_length: usize,
        extensions: *mut u16,
        extensions_length: usize,
    ) -> u64;

    pub fn thq_write_stereo(
        entries: *const u16,
        entries_length: usize,
        extensions: *const u16,
        extensions_length: usize,
        out: *mut u8,
        out_length: usize,
    ) -> u64;

    pub fn thq_read_points(
        program: *const u8,
        program_length: usize,
        bytes: *const u8,
        bytes_length: usize,
        descriptors: *mut u32,
        descriptors_length: usize,
        profiles: *mut u8,
        profiles_length: usize,
        points: *mut u32,
        points_length: usize,
        references: *mut u8,
        references_length: usize,
        layers: *mut u8,
        layers_length: usize,
        streams: *mut u8,
        streams_length: usize,
        summary: *mut u32,
        summary_length: usize,
    ) -> u64;

    pub fn thq_write_points(
        profiles: *const u8,
        profiles_length: usize,
        points: *const u32,
        points_length: usize,
        references: *const u8,
        references_length: usize,
        layers: *const u8,
        layers_length: usize,
        out: *mut u8,
        out_length: usize,
    ) -> u64;

    pub fn thq_set_read(
        reading: u64,
        bytes: *const u8,
        bytes_length: usize,
        layers: *mut u16,
        layers_length: usize,
        stored: *mut u64,
        stored_length: usize,
    ) -> u64;

    pub fn thq_set_add(
        layers: *mut u16,
        layers_length: usize,
        stored: *mut u64,
        stored_length: usize,
        entry: *const u16,
        entry_length: usize,
    ) -> u64;

    pub fn thq_set_remove(
        layers: *mut u16,
        layers_length: usize,
        stored: *mut u64,
        stored_length: usize,
        index: u64,
    ) -> u64;

    pub fn thq_set_closure(
        layers: *const u16,
        layers_length: usize,
        stored: *const u64,
        stored_length: usize,
        target: u64,
        closure: *mut u64,
        closure_length: usize,
    ) -> u64;
}

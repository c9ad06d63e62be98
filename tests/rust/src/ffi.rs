//! The archive's eleven calls, as C programs see them.

/// `axp_result` of include/axp.h.
#[repr(C)]
#[derive(Clone, Copy, Debug, PartialEq, Eq)]
pub struct Answer {
    pub answer: u32,
    pub detail: u32,
    pub mask: u32,
    pub cells: u32,
    pub extra_a: u32,
    pub extra_b: u32,
}

/// `axp_span`: the index of a stretch's first cell, and the number of its cells.
#[repr(C)]
#[derive(Clone, Copy, Debug, PartialEq, Eq)]
pub struct Span {
    pub offset: u32,
    pub length: u32,
}

/// `axp_written`: 0 or a number, and the length of the file.
#[repr(C)]
#[derive(Clone, Copy, Debug, PartialEq, Eq)]
pub struct Written {
    pub answer: u32,
    pub length: u32,
}

/// `axp_counted`: 0 or a number, and how many entries a file has.
#[repr(C)]
#[derive(Clone, Copy, Debug, PartialEq, Eq)]
pub struct Counted {
    pub answer: u32,
    pub entries: u32,
}

/// `axp_stretch`: 0 or a number, and a stretch of a file.
#[repr(C)]
#[derive(Clone, Copy, Debug, PartialEq, Eq)]
pub struct Stretch {
    pub answer: u32,
    pub offset: u32,
    pub length: u32,
}

/// `AXP_NO_EXTRA`.
pub const NO_EXTRA: u32 = u32::MAX;

/// `AXP_LOST`.
pub const LOST: u8 = 2;

extern "C" {
    fn axp_encode(blocks: u32, payload: *const u8, payload_len: usize, out: *mut u8, out_len: usize) -> Answer;
    fn axp_read(blocks: u32, image: *const u8, image_len: usize, out: *mut u8, out_len: usize) -> Answer;
    fn axp_repair(blocks: u32, flags: u32, image: *const u8, image_len: usize, out: *mut u8, out_len: usize) -> Answer;
    fn axp_trace(blocks: u32, flags: u32, image: *const u8, image_len: usize, out: *mut u8, out_len: usize) -> Answer;
    fn axp_trace_within(blocks: u32, flags: u32, ceiling: u32, image: *const u8, image_len: usize, out: *mut u8, out_len: usize) -> Answer;
    fn axp_repair_spans(blocks: u32, spans: *const Span, spans_len: usize, image: *const u8, image_len: usize, out: *mut u8, out_len: usize) -> Answer;
    fn axp_pack(blocks: u32, image: *const u8, image_len: usize, out: *mut u8, out_len: usize) -> Answer;
    fn axp_unpack(blocks: u32, packed: *const u8, packed_len: usize, out: *mut u8, out_len: usize) -> Answer;
    fn axp_file_write(entries: u32, bytes: *const u8, bytes_len: usize, out: *mut u8, out_len: usize) -> Written;
    fn axp_file_count(file: *const u8, file_len: usize) -> Counted;
    fn axp_file_entry(file: *const u8, file_len: usize, index: u32) -> Stretch;
}

/// The archive's writer of a cartridge file.
pub fn file_write(entries: u32, bytes: &[u8], out: &mut [u8]) -> Written {
    unsafe { axp_file_write(entries, bytes.as_ptr(), bytes.len(), out.as_mut_ptr(), out.len()) }
}

/// The archive's count of a file's entries.
pub fn file_count(file: &[u8]) -> Counted {
    unsafe { axp_file_count(file.as_ptr(), file.len()) }
}

/// The archive's reader of a file.
pub fn file_entry(file: &[u8], index: u32) -> Stretch {
    unsafe { axp_file_entry(file.as_ptr(), file.len(), index) }
}

/// A call, with its flags, its flags and its ceiling, or its table where it takes some.
#[derive(Clone, Copy, Debug, PartialEq, Eq)]
pub enum Call<'a> {
    Encode,
    Read,
    Repair(u32),
    Trace(u32),
    TraceWithin(u32, u32),
    RepairSpans(&'a [Span]),
    Pack,
    Unpack,
}

impl Call<'_> {
    /// Calls the archive.
    pub fn make(self, blocks: u32, input: &[u8], out: &mut [u8]) -> Answer {
        let (from, from_len) = (input.as_ptr(), input.len());
        let (to, to_len) = (out.as_mut_ptr(), out.len());
        unsafe {
            match self {
                Call::Encode => axp_encode(blocks, from, from_len, to, to_len),
                Call::Read => axp_read(blocks, from, from_len, to, to_len),
                Call::Repair(flags) => axp_repair(blocks, flags, from, from_len, to, to_len),
                Call::Trace(flags) => axp_trace(blocks, flags, from, from_len, to, to_len),
                Call::TraceWithin(flags, ceiling) => axp_trace_within(blocks, flags, ceiling, from, from_len, to, to_len),
                Call::RepairSpans(spans) => {
                    axp_repair_spans(blocks, spans.as_ptr(), spans.len(), from, from_len, to, to_len)
                }
                Call::Pack => axp_pack(blocks, from, from_len, to, to_len),
                Call::Unpack => axp_unpack(blocks, from, from_len, to, to_len),
            }
        }
    }
}

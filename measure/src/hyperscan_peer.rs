// Hyperscan in streaming mode: a stream is written piece by piece, and each match is called back.
use crate::engine::{Engine, Out};
use crate::tags::Tag;
use std::ffi::{c_char, c_int, c_uint, c_ulonglong, c_void};
use std::ptr::null_mut;

const SUCCESS: c_int = 0;
const STREAMING: c_uint = 2;
const CASELESS: c_uint = 1;

#[repr(C)]
struct CompileError {
    message: *mut c_char,
    expression: c_int,
}

type OnMatch = extern "C" fn(
    id: c_uint,
    from: c_ulonglong,
    to: c_ulonglong,
    flags: c_uint,
    context: *mut c_void,
) -> c_int;

extern "C" {
    fn hs_valid_platform() -> c_int;
    fn hs_compile_lit_multi(
        expressions: *const *const c_char,
        flags: *const c_uint,
        ids: *const c_uint,
        lens: *const usize,
        elements: c_uint,
        mode: c_uint,
        platform: *const c_void,
        db: *mut *mut c_void,
        error: *mut *mut CompileError,
    ) -> c_int;
    fn hs_free_database(db: *mut c_void) -> c_int;
    fn hs_alloc_scratch(db: *const c_void, scratch: *mut *mut c_void) -> c_int;
    fn hs_free_scratch(scratch: *mut c_void) -> c_int;
    fn hs_open_stream(db: *const c_void, flags: c_uint, stream: *mut *mut c_void) -> c_int;
    fn hs_reset_stream(
        stream: *mut c_void,
        flags: c_uint,
        scratch: *mut c_void,
        on_match: Option<OnMatch>,
        context: *mut c_void,
    ) -> c_int;
    fn hs_scan_stream(
        stream: *mut c_void,
        data: *const c_char,
        length: c_uint,
        flags: c_uint,
        scratch: *mut c_void,
        on_match: Option<OnMatch>,
        context: *mut c_void,
    ) -> c_int;
    fn hs_close_stream(
        stream: *mut c_void,
        scratch: *mut c_void,
        on_match: Option<OnMatch>,
        context: *mut c_void,
    ) -> c_int;
}

/// Whether this processor has what Hyperscan needs.
pub fn runs_here() -> bool {
    unsafe { hs_valid_platform() == SUCCESS }
}

pub struct Database(*mut c_void);

impl Database {
    pub fn compile(tags: &[Tag]) -> Database {
        let addresses: Vec<*const c_char> =
            tags.iter().map(|tag| tag.bytes.as_ptr().cast()).collect();
        let flag = |tag: &Tag| if tag.folded { CASELESS } else { 0 };
        let flags: Vec<c_uint> = tags.iter().map(flag).collect();
        let ids: Vec<c_uint> = (0..tags.len() as c_uint).collect();
        let lens: Vec<usize> = tags.iter().map(|tag| tag.bytes.len()).collect();
        let (mut db, mut error) = (null_mut(), null_mut());
        let said = unsafe {
            hs_compile_lit_multi(
                addresses.as_ptr(),
                flags.as_ptr(),
                ids.as_ptr(),
                lens.as_ptr(),
                tags.len() as c_uint,
                STREAMING,
                null_mut(),
                &mut db,
                &mut error,
            )
        };
        assert_eq!(said, SUCCESS, "Hyperscan compiles sixteen short literals");
        Database(db)
    }
}

impl Drop for Database {
    fn drop(&mut self) {
        unsafe { hs_free_database(self.0) };
    }
}

pub struct Hyperscan {
    scratch: *mut c_void,
    stream: *mut c_void,
    _database: Database,
}

impl Hyperscan {
    pub fn new(tags: &[Tag]) -> Hyperscan {
        let database = Database::compile(tags);
        let (mut scratch, mut stream) = (null_mut(), null_mut());
        let said = unsafe {
            (
                hs_alloc_scratch(database.0, &mut scratch),
                hs_open_stream(database.0, 0, &mut stream),
            )
        };
        assert_eq!(
            said,
            (SUCCESS, SUCCESS),
            "Hyperscan has memory for a stream"
        );
        Hyperscan {
            scratch,
            stream,
            _database: database,
        }
    }
}

impl Drop for Hyperscan {
    fn drop(&mut self) {
        unsafe {
            hs_close_stream(self.stream, self.scratch, None, null_mut());
            hs_free_scratch(self.scratch);
        }
    }
}

extern "C" fn push(
    id: c_uint,
    _from: c_ulonglong,
    to: c_ulonglong,
    _flags: c_uint,
    context: *mut c_void,
) -> c_int {
    // The context is the Out that piece hands to the scan, which nothing else touches meanwhile.
    let out = unsafe { &mut *context.cast::<Out>() };
    out.push(to as u32, id);
    0
}

impl Engine for Hyperscan {
    fn begin(&mut self) {
        let said = unsafe { hs_reset_stream(self.stream, 0, self.scratch, None, null_mut()) };
        assert_eq!(said, SUCCESS, "Hyperscan resets a stream");
    }

    fn piece(&mut self, input: &[u8], from: usize, to: usize, out: &mut Out) {
        let piece = &input[from..to];
        let context: *mut Out = out;
        let said = unsafe {
            let (data, length) = (piece.as_ptr().cast(), piece.len() as c_uint);
            hs_scan_stream(
                self.stream,
                data,
                length,
                0,
                self.scratch,
                Some(push),
                context.cast(),
            )
        };
        assert_eq!(said, SUCCESS, "Hyperscan scans a piece");
        out.empty();
    }
}

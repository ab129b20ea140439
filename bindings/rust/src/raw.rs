//! The calls of `libjp.a`, of which `bindings/c/jp.h` says what a caller owes. All that is `unsafe` is here.
//!
//! Slices are never null, and are borrowed as C uses them: what is read is shared, and what is written is
//! exclusive. So nothing more is owed than that no two calls use a handle at once, which takes `&mut Handle`.

use crate::numbers::{self, status};
use crate::query::Span;
use std::ffi::c_void;
use std::io;
use std::thread;

/// The stack of a thread on which each call has room.
const ROOM: usize = 2 * numbers::STACK;
/// As many bytes as a text is first given.
const FIRST_ROOM: usize = 4096;

/// What a call tells.
#[derive(Clone, Copy, Default)]
#[repr(C)]
pub(crate) struct Report {
    pub(crate) status: u32,
    pub(crate) kind: u32,
    pub(crate) place: usize,
    pub(crate) length: usize,
    pub(crate) steps: u64,
}

/// The most that a call may do and give; of each 0 is any number.
#[derive(Clone, Copy, Debug, Default, PartialEq, Eq)]
#[repr(C)]
pub(crate) struct Limit {
    pub(crate) steps: u64,
    pub(crate) nodes: u64,
    pub(crate) bytes: u64,
}

/// One of many queries: where it stands in their text, and its report.
#[derive(Clone, Copy, Default)]
#[repr(C)]
pub(crate) struct Question {
    pub(crate) start: usize,
    pub(crate) size: usize,
    pub(crate) report: Report,
}

/// Where a document that is refused goes wrong.
#[derive(Clone, Copy, Default)]
#[repr(C)]
pub(crate) struct Place {
    pub(crate) offset: usize,
    pub(crate) line: usize,
    pub(crate) column: usize,
}

/// A text that a handle lends until its next call. There is nothing at the start where the length is 0.
#[repr(C)]
struct Text {
    start: *const u8,
    length: usize,
}

// SAFETY: what is lent is read only while its handle is ours alone.
unsafe impl Send for Text {}

/// Where someone stands among the nodes of a kept document, at first before all of them.
#[derive(Default)]
#[repr(C)]
pub(crate) struct Cursor {
    given: u64,
    asked: u64,
    /// What is left of a page, which is nothing, since each is taken whole.
    lines: [usize; 2],
    steps: u64,
    known: u64,
    page: u64,
}

/// Keeps a query, a document or nothing.
#[repr(C)]
pub(crate) struct Handle {
    at: *mut c_void,
    full: u8,
    depth: [u8; 3],
}

// SAFETY: what a handle keeps is memory of the C library's heap, which belongs to no thread.
unsafe impl Send for Handle {}

#[rustfmt::skip]
extern "C" {
    fn jp_version() -> u32;
    fn jp_eval_many(
        queries: *const u8, queries_length: usize, questions: *mut Question, questions_length: usize,
        document: *const u8, document_length: usize, form: u32, profile: u32, limit: *const Limit,
        out: *mut u8, out_length: usize,
    ) -> usize;
    fn jp_canon(
        query: *const u8, query_length: usize, profile: u32,
        out: *mut u8, out_length: usize, report: *mut Report,
    ) -> u32;
    fn jp_explain(
        query: *const u8, query_length: usize, profile: u32, part: u32,
        out: *mut u8, out_length: usize, report: *mut Report,
    ) -> u32;
    fn jp_query_new(
        query: *const u8, query_length: usize, profile: u32, handle: *mut Handle, report: *mut Report,
    ) -> u32;
    fn jp_document_new(
        document: *const u8, document_length: usize, profile: u32, handle: *mut Handle,
        out: *mut u8, out_length: usize, report: *mut Report,
    ) -> u32;
    fn jp_explain_document(
        document: *const u8, document_length: usize, profile: u32, part: u32, place: *mut Place,
        out: *mut u8, out_length: usize, report: *mut Report,
    ) -> u32;
    fn jp_ask(
        query: *mut Handle, document: *const u8, document_length: usize,
        form: u32, from: u64, count: u64, limit: *const Limit, text: *mut Text, report: *mut Report,
    ) -> u32;
    fn jp_ask_document(
        query: *mut Handle, document: *mut Handle,
        form: u32, from: u64, count: u64, limit: *const Limit, text: *mut Text, report: *mut Report,
    ) -> u32;
    fn jp_next_page(
        cursor: *mut Cursor, query: *mut Handle, document: *mut Handle,
        limit: u64, lines: *mut Text, report: *mut Report,
    ) -> u32;
    fn jp_pointer(path: *const Text, out: *mut u8, out_length: usize) -> usize;
    fn jp_clear(handle: *mut Handle);
}

/// The version: 65536 times the major number, 256 times the minor one, and the patch.
pub(crate) fn version() -> u32 {
    // SAFETY: the call takes nothing.
    unsafe { jp_version() }
}

/// The JSON Pointer to the node of a normalized path.
pub(crate) fn pointer(path: &str) -> String {
    let text = Text {
        start: path.as_ptr(),
        length: path.len(),
    };
    // No pointer is as long.
    let mut out = vec![0; 2 * path.len()];
    // SAFETY: the path is borrowed for the call, and the buffer has as many bytes as is said.
    let length = unsafe { jp_pointer(&text, out.as_mut_ptr(), out.len()) };
    out.truncate(length);
    String::from_utf8(out).expect("UTF-8, as the path is")
}

/// What `jp_eval_many` writes; the questions get their reports.
pub(crate) fn eval_many(
    queries: &[u8],
    questions: &mut [Question],
    document: &[u8],
    form: u32,
    profile: u32,
    limit: Limit,
) -> String {
    let (_, text) = written(|out, length, report| {
        // SAFETY: each pointer is to as many bytes, or questions, as the length beside it says.
        report.length = unsafe {
            jp_eval_many(
                queries.as_ptr(),
                queries.len(),
                questions.as_mut_ptr(),
                questions.len(),
                document.as_ptr(),
                document.len(),
                form,
                profile,
                &limit,
                out,
                length,
            )
        };
        // Where there is too little stack, that is so for all.
        report.status = match questions.first() {
            Some(question) if question.report.status == status::NO_STACK => status::NO_STACK,
            _ => status::DONE,
        };
    });
    text
}

/// What `jp_canon` writes.
pub(crate) fn canon(query: &[u8], profile: u32) -> (Report, String) {
    written(|out, length, report| {
        // SAFETY: each pointer is to as many bytes as the length beside it says.
        unsafe { jp_canon(query.as_ptr(), query.len(), profile, out, length, report) };
    })
}

/// What `jp_explain` writes.
pub(crate) fn explain(query: &[u8], profile: u32, part: u32) -> String {
    let (_, text) = written(|out, length, report| {
        // SAFETY: each pointer is to as many bytes as the length beside it says.
        unsafe {
            jp_explain(
                query.as_ptr(),
                query.len(),
                profile,
                part,
                out,
                length,
                report,
            )
        };
    });
    text
}

/// What `jp_explain_document` writes, and where the document goes wrong.
pub(crate) fn explain_document(document: &[u8], profile: u32, part: u32) -> (Place, String) {
    let mut place = Place::default();
    let (_, text) = written(|out, length, report| {
        // SAFETY: each pointer is to as many bytes as the length beside it says.
        unsafe {
            jp_explain_document(
                document.as_ptr(),
                document.len(),
                profile,
                part,
                &mut place,
                out,
                length,
                report,
            )
        };
    });
    (place, text)
}

impl Handle {
    /// A handle that keeps nothing.
    pub(crate) fn empty() -> Self {
        Handle {
            at: std::ptr::null_mut(),
            full: 0,
            depth: [0; 3],
        }
    }

    /// Keeps the query, where it is accepted.
    pub(crate) fn keep_query(&mut self, query: &[u8], profile: u32) -> Report {
        let (report, _) = written(|_, _, report| {
            // SAFETY: the query is as long as its length says, and the handle is ours alone.
            unsafe { jp_query_new(query.as_ptr(), query.len(), profile, self, report) };
        });
        report
    }

    /// Keeps the document, where it is one with the numbers of the profile; else the text is the path of a number that
    /// is not of these.
    pub(crate) fn keep_document(&mut self, document: &[u8], profile: u32) -> (Report, String) {
        written(|out, length, report| {
            // SAFETY: each pointer is to as many bytes as the length beside it says, and the handle is ours.
            unsafe {
                jp_document_new(
                    document.as_ptr(),
                    document.len(),
                    profile,
                    self,
                    out,
                    length,
                    report,
                );
            }
        })
    }

    /// What `jp_ask` lends of the query that this handle keeps, over a JSON text.
    pub(crate) fn ask(
        &mut self,
        document: &[u8],
        form: u32,
        span: Span,
        limit: Limit,
    ) -> (Report, String) {
        lent(|text, report| {
            // SAFETY: the document is as long as its length says, and the handle is ours alone.
            unsafe {
                jp_ask(
                    self,
                    document.as_ptr(),
                    document.len(),
                    form,
                    span.from,
                    span.count,
                    &limit,
                    text,
                    report,
                )
            };
        })
    }

    /// What `jp_ask_document` lends of the query that this handle keeps, over the document that the other does.
    pub(crate) fn ask_document(
        &mut self,
        document: &mut Handle,
        form: u32,
        span: Span,
        limit: Limit,
    ) -> (Report, String) {
        lent(|text, report| {
            // SAFETY: the two handles are not the same, and ours alone.
            unsafe {
                jp_ask_document(
                    self, document, form, span.from, span.count, &limit, text, report,
                )
            };
        })
    }

    /// The lines that `jp_next_page` lends of the query that this handle keeps, over the document that the other does.
    pub(crate) fn next_page(
        &mut self,
        cursor: &mut Cursor,
        document: &mut Handle,
        steps: u64,
    ) -> (Report, String) {
        let (mut report, lines) = lent(|lines, report| {
            // SAFETY: the cursor holds no page, and the two handles are not the same, and ours alone.
            unsafe { jp_next_page(cursor, self, document, steps, lines, report) };
        });
        if report.status == status::STEPS_USED_UP {
            // What the last of its evaluations might have made, and not what all of them made.
            report.steps = steps;
        }
        (report, lines)
    }

    fn clear(&mut self) {
        // SAFETY: the handle is ours alone, and is empty or was filled by the calls above.
        unsafe { jp_clear(self) };
    }
}

impl Drop for Handle {
    fn drop(&mut self) {
        self.clear();
        if self.full != 0 {
            // There was too little stack. Where no thread can be had, the memory is not given back.
            let _ = on_a_thread(|| self.clear());
        }
    }
}

/// The report and the text of a call that writes to a buffer. It is made again where the buffer is too small,
/// and on a thread of its own where this one has too little stack.
fn written(mut call: impl FnMut(*mut u8, usize, &mut Report) + Send) -> (Report, String) {
    let mut bytes = Vec::with_capacity(FIRST_ROOM);
    let mut report = Report::default();
    loop {
        let room = bytes.capacity();
        call_with_room(&mut call, &mut bytes, &mut report);
        if report.length <= room {
            break;
        }
        bytes.reserve_exact(report.length);
    }
    // SAFETY: the call has written so many bytes, for which there was room.
    unsafe { bytes.set_len(report.length) };
    let text = String::from_utf8(bytes).expect("jp writes UTF-8");
    (report, text)
}

/// The report and a copy of the text of a call that lends one, made on a thread of its own where this one has too
/// little stack.
fn lent(mut call: impl FnMut(&mut Text, &mut Report) + Send) -> (Report, String) {
    let mut report = Report::default();
    let mut text = Text {
        start: std::ptr::null(),
        length: 0,
    };
    call(&mut text, &mut report);
    if report.status == status::NO_STACK {
        // Where no thread can be had, the report says still that there is too little stack.
        let _ = on_a_thread(|| call(&mut text, &mut report));
    }
    let bytes = match text.length {
        0 => &[][..],
        // SAFETY: so many bytes are lent until the next call with the handle, which the caller has alone.
        length => unsafe { std::slice::from_raw_parts(text.start, length) },
    };
    let copy = std::str::from_utf8(bytes).expect("jp lends UTF-8");
    (report, copy.to_owned())
}

fn call_with_room(
    call: &mut (impl FnMut(*mut u8, usize, &mut Report) + Send),
    bytes: &mut Vec<u8>,
    report: &mut Report,
) {
    let mut once = || call(bytes.as_mut_ptr(), bytes.capacity(), report);
    once();
    if report.status == status::NO_STACK {
        // Where no thread can be had, the report says still that there is too little stack.
        let _ = on_a_thread(|| call(bytes.as_mut_ptr(), bytes.capacity(), report));
    }
}

/// Makes a call on a thread that has room for each.
fn on_a_thread(call: impl FnOnce() + Send) -> io::Result<()> {
    thread::scope(|scope| {
        let thread = thread::Builder::new()
            .stack_size(ROOM)
            .spawn_scoped(scope, call)?;
        thread.join().expect("no call of jp panics");
        Ok(())
    })
}

//! expat: the events of a document with their contents, as one line each.
use std::{
    ffi::{c_char, c_int, c_void, CStr},
    ptr,
};

type Parser = *mut c_void;

extern "C" {
    fn XML_ParserCreate(encoding: *const c_char) -> Parser;
    fn XML_ParserReset(parser: Parser, encoding: *const c_char) -> u8;
    fn XML_SetUserData(parser: Parser, data: *mut c_void);
    fn XML_SetElementHandler(
        parser: Parser, start: Option<extern "C" fn(*mut c_void, *const c_char, *const *const c_char)>,
        end: Option<extern "C" fn(*mut c_void, *const c_char)>,
    );
    fn XML_SetCharacterDataHandler(parser: Parser, handler: Option<extern "C" fn(*mut c_void, *const c_char, c_int)>);
    fn XML_SetCommentHandler(parser: Parser, handler: Option<extern "C" fn(*mut c_void, *const c_char)>);
    fn XML_SetProcessingInstructionHandler(
        parser: Parser, handler: Option<extern "C" fn(*mut c_void, *const c_char, *const c_char)>,
    );
    fn XML_SetCdataSectionHandler(
        parser: Parser, start: Option<extern "C" fn(*mut c_void)>, end: Option<extern "C" fn(*mut c_void)>,
    );
    fn XML_SetXmlDeclHandler(parser: Parser, handler: Option<extern "C" fn(*mut c_void, *const c_char, *const c_char, c_int)>);
    fn XML_Parse(parser: Parser, bytes: *const c_char, length: c_int, last: c_int) -> c_int;
    fn XML_GetErrorCode(parser: Parser) -> c_int;
}

pub const DUPLICATE_ATTRIBUTE: i32 = 8;
pub const UNDEFINED_ENTITY: i32 = 11;
pub const BAD_CHAR_REF: i32 = 14;

/// The events so far. Texts that follow one another are one.
#[derive(Default)]
pub struct Seen {
    pub lines: Vec<u8>,
    in_text: bool,
    pub open: Vec<Vec<u8>>,
    pub roots: usize,
}

impl Seen {
    pub fn line(&mut self, kind: u8, parts: &[&[u8]]) {
        if self.in_text {
            self.lines.push(0);
        }
        self.in_text = false;
        self.lines.push(kind);
        for part in parts {
            self.lines.extend_from_slice(part);
            self.lines.push(1);
        }
        self.lines.push(0);
    }
    pub fn text(&mut self, bytes: &[u8]) {
        if bytes.is_empty() {
            return;
        }
        if !self.in_text {
            self.lines.push(b'T');
        }
        self.in_text = true;
        self.lines.extend_from_slice(bytes);
    }
}

/// What expat is handed is alive as long as the handler runs.
unsafe fn bytes<'a>(p: *const c_char) -> &'a [u8] {
    if p.is_null() {
        b""
    } else {
        CStr::from_ptr(p).to_bytes()
    }
}

unsafe fn seen<'a>(data: *mut c_void) -> &'a mut Seen {
    &mut *(data as *mut Seen)
}

extern "C" fn on_start(data: *mut c_void, name: *const c_char, mut attributes: *const *const c_char) {
    unsafe {
        let (seen, mut parts) = (seen(data), vec![bytes(name)]);
        while !(*attributes).is_null() {
            parts.push(bytes(*attributes));
            attributes = attributes.add(1);
        }
        seen.line(b'S', &parts);
        seen.roots += seen.open.is_empty() as usize;
        seen.open.push(bytes(name).to_vec());
    }
}

extern "C" fn on_end(data: *mut c_void, name: *const c_char) {
    unsafe {
        let seen = seen(data);
        seen.line(b'E', &[bytes(name)]);
        seen.open.pop();
    }
}

extern "C" fn on_text(data: *mut c_void, text: *const c_char, length: c_int) {
    unsafe { seen(data).text(std::slice::from_raw_parts(text as *const u8, length as usize)) }
}

extern "C" fn on_comment(data: *mut c_void, text: *const c_char) {
    unsafe { seen(data).line(b'C', &[bytes(text)]) }
}

extern "C" fn on_instruction(data: *mut c_void, target: *const c_char, text: *const c_char) {
    unsafe { seen(data).line(b'P', &[bytes(target), bytes(text)]) }
}

extern "C" fn on_cdata(data: *mut c_void) {
    unsafe { seen(data).line(b'[', &[]) }
}

extern "C" fn on_cdata_end(data: *mut c_void) {
    unsafe { seen(data).line(b']', &[]) }
}

extern "C" fn on_declaration(data: *mut c_void, version: *const c_char, encoding: *const c_char, standalone: c_int) {
    let standalone: &[u8] = match standalone {
        1 => b"yes",
        0 => b"no",
        _ => b"-",
    };
    unsafe { seen(data).line(b'D', &[bytes(version), bytes(encoding), standalone]) }
}

pub struct Expat {
    parser: Parser,
}

impl Expat {
    #[allow(clippy::new_without_default)]
    pub fn new() -> Self {
        Expat { parser: unsafe { XML_ParserCreate(c"UTF-8".as_ptr()) } }
    }

    /// The events of these parts one behind the other; with an error's code where expat refuses them. `last`: nothing is to follow.
    pub fn parse(&mut self, parts: &[&[u8]], last: bool) -> (Seen, Result<(), i32>) {
        let mut seen = Box::new(Seen::default());
        let p = self.parser;
        unsafe {
            XML_ParserReset(p, c"UTF-8".as_ptr());
            XML_SetUserData(p, ptr::from_mut(&mut *seen) as *mut c_void);
            XML_SetElementHandler(p, Some(on_start), Some(on_end));
            XML_SetCharacterDataHandler(p, Some(on_text));
            XML_SetCommentHandler(p, Some(on_comment));
            XML_SetProcessingInstructionHandler(p, Some(on_instruction));
            XML_SetCdataSectionHandler(p, Some(on_cdata), Some(on_cdata_end));
            XML_SetXmlDeclHandler(p, Some(on_declaration));
            for (i, part) in parts.iter().enumerate() {
                let is_last = last && i + 1 == parts.len();
                if XML_Parse(p, part.as_ptr() as *const c_char, part.len() as c_int, is_last as c_int) == 0 {
                    let code = XML_GetErrorCode(p);
                    return (*seen, Err(code));
                }
            }
        }
        if seen.in_text {
            seen.lines.push(0);
        }
        (*seen, Ok(()))
    }
}

//! Request 6: the document that a report is written as. Built only where the archive has the call.
use crate::sys::Refusal;

#[repr(C)]
pub struct Document {
    pub length: usize,
    pub refusal: Refusal,
}

extern "C" {
    fn kerzhoma_write_xml(
        records: *const u32, records_len: usize, text: *const u8, text_len: usize, out: *mut u8, out_len: usize,
    ) -> Document;
}

pub fn write_xml(records: &[u32], text: &[u8], out: &mut [u8]) -> Document {
    unsafe { kerzhoma_write_xml(records.as_ptr(), records.len(), text.as_ptr(), text.len(), out.as_mut_ptr(), out.len()) }
}

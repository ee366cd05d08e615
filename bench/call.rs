// Bare calls of the static library `port_c`, for the measurements beside this file. They take tables and areas of every length and
// content: words of events, attributes and records, bytes of source, text, scratch and output.
#![allow(dead_code)]

#[repr(C)]
pub struct Refusal {
    pub number: u32,
    pub cause: u32,
    pub depth: u32,
    pub path: [u32; 18],
    pub event: u32,
    pub attribute: u32,
}

#[repr(C)]
pub struct Listing {
    pub length: usize,
    pub refusal: Refusal,
}

#[repr(C)]
pub struct Document {
    pub length: usize,
    pub refusal: Refusal,
}

#[repr(C)]
pub struct Writing {
    pub events: usize,
    pub attributes: usize,
    pub bytes: usize,
    pub refusal: Refusal,
}

extern "C" {
    fn kerzhoma_read_and_list(
        events: *const u32,
        events_len: usize,
        attributes: *const u32,
        attributes_len: usize,
        source: *const u8,
        source_len: usize,
        records: *mut u32,
        records_len: usize,
        text: *mut u8,
        text_len: usize,
        scratch: *mut u8,
        scratch_len: usize,
        out: *mut u8,
        out_len: usize,
    ) -> Listing;
    fn kerzhoma_public_listing(
        events: *const u32,
        events_len: usize,
        attributes: *const u32,
        attributes_len: usize,
        source: *const u8,
        source_len: usize,
        records: *mut u32,
        records_len: usize,
        text: *mut u8,
        text_len: usize,
        scratch: *mut u8,
        scratch_len: usize,
        out: *mut u8,
        out_len: usize,
    ) -> usize;
    fn kerzhoma_read(
        events: *const u32,
        events_len: usize,
        attributes: *const u32,
        attributes_len: usize,
        source: *const u8,
        source_len: usize,
        records: *mut u32,
        records_len: usize,
        text: *mut u8,
        text_len: usize,
        scratch: *mut u8,
        scratch_len: usize,
    ) -> Refusal;
    fn kerzhoma_list(
        records: *const u32,
        records_len: usize,
        text: *const u8,
        text_len: usize,
        out: *mut u8,
        out_len: usize,
    ) -> Listing;
    fn kerzhoma_write(
        records: *const u32,
        records_len: usize,
        text: *const u8,
        text_len: usize,
        events: *mut u32,
        events_len: usize,
        attributes: *mut u32,
        attributes_len: usize,
        bytes: *mut u8,
        bytes_len: usize,
    ) -> Writing;
    fn kerzhoma_write_xml(
        records: *const u32,
        records_len: usize,
        text: *const u8,
        text_len: usize,
        out: *mut u8,
        out_len: usize,
    ) -> Document;
}

pub fn read_and_list(
    events: &[u32],
    attributes: &[u32],
    source: &[u8],
    records: &mut [u32],
    text: &mut [u8],
    scratch: &mut [u8],
    out: &mut [u8],
) -> Listing {
    unsafe {
        kerzhoma_read_and_list(
            events.as_ptr(),
            events.len(),
            attributes.as_ptr(),
            attributes.len(),
            source.as_ptr(),
            source.len(),
            records.as_mut_ptr(),
            records.len(),
            text.as_mut_ptr(),
            text.len(),
            scratch.as_mut_ptr(),
            scratch.len(),
            out.as_mut_ptr(),
            out.len(),
        )
    }
}

pub fn public_listing(
    events: &[u32],
    attributes: &[u32],
    source: &[u8],
    records: &mut [u32],
    text: &mut [u8],
    scratch: &mut [u8],
    out: &mut [u8],
) -> usize {
    unsafe {
        kerzhoma_public_listing(
            events.as_ptr(),
            events.len(),
            attributes.as_ptr(),
            attributes.len(),
            source.as_ptr(),
            source.len(),
            records.as_mut_ptr(),
            records.len(),
            text.as_mut_ptr(),
            text.len(),
            scratch.as_mut_ptr(),
            scratch.len(),
            out.as_mut_ptr(),
            out.len(),
        )
    }
}

pub fn read(
    events: &[u32],
    attributes: &[u32],
    source: &[u8],
    records: &mut [u32],
    text: &mut [u8],
    scratch: &mut [u8],
) -> Refusal {
    unsafe {
        kerzhoma_read(
            events.as_ptr(),
            events.len(),
            attributes.as_ptr(),
            attributes.len(),
            source.as_ptr(),
            source.len(),
            records.as_mut_ptr(),
            records.len(),
            text.as_mut_ptr(),
            text.len(),
            scratch.as_mut_ptr(),
            scratch.len(),
        )
    }
}

pub fn list(records: &[u32], text: &[u8], out: &mut [u8]) -> Listing {
    unsafe {
        kerzhoma_list(
            records.as_ptr(),
            records.len(),
            text.as_ptr(),
            text.len(),
            out.as_mut_ptr(),
            out.len(),
        )
    }
}

pub fn write(
    records: &[u32],
    text: &[u8],
    events: &mut [u32],
    attributes: &mut [u32],
    bytes: &mut [u8],
) -> Writing {
    unsafe {
        kerzhoma_write(
            records.as_ptr(),
            records.len(),
            text.as_ptr(),
            text.len(),
            events.as_mut_ptr(),
            events.len(),
            attributes.as_mut_ptr(),
            attributes.len(),
            bytes.as_mut_ptr(),
            bytes.len(),
        )
    }
}

pub fn write_xml(records: &[u32], text: &[u8], out: &mut [u8]) -> Document {
    unsafe { kerzhoma_write_xml(records.as_ptr(), records.len(), text.as_ptr(), text.len(), out.as_mut_ptr(), out.len()) }
}

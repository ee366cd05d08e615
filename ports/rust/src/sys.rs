//! The calls of the proved library, and nothing else: the one module with `unsafe`.
//!
//! Each function takes areas and numbers of every length and value, reads and writes nothing outside the slices that it is lent, and
//! ends: that is proved. What is left to this module is that the declarations are those of the library (ports/c/kerzhoma.h) and that a
//! slice is handed on as its pointer and its length. Slices of safe Rust are aligned, and a mutable one overlaps no other.

/// Number 0 is accepted. Of the path's words the first three times `depth` are kind, index and event of its elements.
#[repr(C)]
#[derive(Clone, Copy, PartialEq, Eq, Hash)]
pub struct Refusal {
    pub number: u32,
    pub cause: u32,
    pub depth: u32,
    pub path: [u32; 18],
    pub event: u32,
    pub attribute: u32,
}

#[repr(C)]
#[derive(Clone, Copy)]
pub struct Listing {
    pub length: usize,
    pub refusal: Refusal,
}

#[repr(C)]
#[derive(Clone, Copy)]
pub struct Document {
    pub length: usize,
    pub refusal: Refusal,
}

#[repr(C)]
#[derive(Clone, Copy)]
pub struct Explained {
    pub length: usize,
    pub refusal: Refusal,
}

#[repr(C)]
#[derive(Clone, Copy)]
pub struct Writing {
    pub events: usize,
    pub attributes: usize,
    pub bytes: usize,
    pub refusal: Refusal,
}

#[repr(C)]
#[derive(Clone, Copy)]
pub struct Tokenized {
    pub events: u32,
    pub attributes: u32,
    pub number: u32,
    pub byte: u32,
}

#[repr(C)]
#[derive(Clone, Copy)]
pub struct Counts {
    pub tests: u64,
    pub failures: u64,
    pub errors: u64,
    pub skipped: u64,
    pub disabled: u64,
    pub presence: bool,
}

#[repr(C)]
#[derive(Clone, Copy)]
pub struct Counted {
    pub counts: Counts,
    pub refusal: Refusal,
}

#[repr(C)]
#[derive(Clone, Copy)]
pub struct Sheet {
    pub sums: Counts,
    pub passed: u64,
}

#[repr(C)]
#[derive(Clone, Copy)]
pub struct Released {
    pub sheet: Sheet,
    pub refusal: Refusal,
}

#[repr(C)]
#[derive(Clone, Copy)]
pub struct Printed {
    pub length: usize,
    pub refusal: Refusal,
}

#[repr(C)]
#[derive(Clone, Copy, Debug)]
pub struct Builder {
    pub records: u32,
    pub bytes: u32,
    pub report: u32,
    pub suite: u32,
    pub case: u32,
    pub main: u32,
}

#[repr(C)]
#[derive(Clone, Copy)]
pub struct Built {
    pub builder: Builder,
    pub refusal: Refusal,
}

#[repr(C)]
#[derive(Clone, Copy)]
pub struct Moment {
    pub year: u16,
    pub month: u8,
    pub day: u8,
    pub hour: u8,
    pub minute: u8,
    pub second: u8,
    pub nanos: u32,
    pub offset: u16,
}

#[repr(C)]
#[derive(Clone, Copy)]
pub struct Uuid {
    pub a: u32,
    pub b: u32,
    pub c: u32,
    pub d: u32,
}

#[repr(C)]
#[derive(Clone, Copy)]
pub struct Started {
    pub found: bool,
    pub first: Moment,
    pub last: Moment,
    pub seconds: u64,
    pub nanos: u32,
    pub refusal: Refusal,
}

// The sizes that C gives the same structs on x86-64.
const _: () = {
    assert!(size_of::<Refusal>() == 92 && size_of::<Listing>() == 104 && size_of::<Writing>() == 120);
    assert!(size_of::<Tokenized>() == 16 && size_of::<Explained>() == 104);
    assert!(size_of::<Counts>() == 48 && size_of::<Counted>() == 144);
    assert!(size_of::<Sheet>() == 56 && size_of::<Released>() == 152 && size_of::<Printed>() == 104);
    assert!(size_of::<Builder>() == 24 && size_of::<Built>() == 116);
    assert!(size_of::<Moment>() == 16 && size_of::<Uuid>() == 16 && size_of::<Started>() == 144);
};

extern "C" {
    fn kerzhoma_tokenize(
        source: *const u8, source_len: usize, events: *mut u32, events_len: usize, attributes: *mut u32, attributes_len: usize,
    ) -> Tokenized;
    fn kerzhoma_list_xml(
        source: *const u8, source_len: usize, events: *mut u32, events_len: usize, attributes: *mut u32, attributes_len: usize,
        records: *mut u32, records_len: usize, text: *mut u8, text_len: usize, scratch: *mut u8, scratch_len: usize, out: *mut u8,
        out_len: usize,
    ) -> usize;
    fn kerzhoma_explain_xml(
        source: *const u8, source_len: usize, number: u32, byte: u32, events: usize, attributes: usize, out: *mut u8,
        out_len: usize,
    ) -> usize;
    fn kerzhoma_read(
        events: *const u32, events_len: usize, attributes: *const u32, attributes_len: usize, source: *const u8, source_len: usize,
        records: *mut u32, records_len: usize, text: *mut u8, text_len: usize, scratch: *mut u8, scratch_len: usize,
    ) -> Refusal;
    fn kerzhoma_list(
        records: *const u32, records_len: usize, text: *const u8, text_len: usize, out: *mut u8, out_len: usize,
    ) -> Listing;
    fn kerzhoma_read_and_list(
        events: *const u32, events_len: usize, attributes: *const u32, attributes_len: usize, source: *const u8, source_len: usize,
        records: *mut u32, records_len: usize, text: *mut u8, text_len: usize, scratch: *mut u8, scratch_len: usize, out: *mut u8,
        out_len: usize,
    ) -> Listing;
    fn kerzhoma_public_listing(
        events: *const u32, events_len: usize, attributes: *const u32, attributes_len: usize, source: *const u8, source_len: usize,
        records: *mut u32, records_len: usize, text: *mut u8, text_len: usize, scratch: *mut u8, scratch_len: usize, out: *mut u8,
        out_len: usize,
    ) -> usize;
    fn kerzhoma_is_layout(records: *const u32, records_len: usize, text: *const u8, text_len: usize) -> bool;
    fn kerzhoma_write(
        records: *const u32, records_len: usize, text: *const u8, text_len: usize, events: *mut u32, events_len: usize,
        attributes: *mut u32, attributes_len: usize, bytes: *mut u8, bytes_len: usize,
    ) -> Writing;
    fn kerzhoma_rehearse(
        cases: u64, failures: u64, errors: u64, skipped: u64, flaky: u64, events: *mut u32, events_len: usize, attributes: *mut u32,
        attributes_len: usize, bytes: *mut u8, bytes_len: usize,
    ) -> Writing;
    fn kerzhoma_write_xml(
        records: *const u32, records_len: usize, text: *const u8, text_len: usize, out: *mut u8, out_len: usize,
    ) -> Document;
    fn kerzhoma_explain(
        refusal: Refusal, lent: usize, events: *const u32, events_len: usize, attributes: *const u32, attributes_len: usize,
        source: *const u8, source_len: usize, out: *mut u8, out_len: usize,
    ) -> Explained;
    fn kerzhoma_time_text(out: *mut u8, out_len: usize, seconds: u32, nanos: u32) -> usize;
    fn kerzhoma_starts(records: *const u32, records_len: usize, text: *const u8, text_len: usize) -> Started;
    fn kerzhoma_merge(
        first: *const u32, first_len: usize, first_text: *const u8, first_text_len: usize, second: *const u32, second_len: usize,
        second_text: *const u8, second_text_len: usize, records: *mut u32, records_len: usize, text: *mut u8, text_len: usize,
    ) -> Refusal;
    fn kerzhoma_add_case(counts: Counts, outcome: u32) -> Counted;
    fn kerzhoma_add_suite(counts: Counts, suite: Counts) -> Counted;
    fn kerzhoma_release_sheet(records: *const Counts, records_len: usize) -> Released;
    fn kerzhoma_print_sheet(records: *const Counts, records_len: usize, out: *mut u8, out_len: usize) -> Printed;
    fn kerzhoma_new_report(
        records: *mut u32, records_len: usize, text: *mut u8, text_len: usize, name: *const u8, name_len: usize,
    ) -> Built;
    fn kerzhoma_unnamed_report(records: *mut u32, records_len: usize, text: *mut u8, text_len: usize) -> Built;
    fn kerzhoma_add_test_suite(
        builder: Builder, records: *mut u32, records_len: usize, text: *mut u8, text_len: usize, name: *const u8, name_len: usize,
    ) -> Built;
    fn kerzhoma_add_test_case(
        builder: Builder, records: *mut u32, records_len: usize, text: *mut u8, text_len: usize, name: *const u8, name_len: usize,
        outcome: u32,
    ) -> Built;
    fn kerzhoma_add_rerun(
        builder: Builder, records: *mut u32, records_len: usize, text: *mut u8, text_len: usize, kind: u32,
    ) -> Built;
    fn kerzhoma_add_property(
        builder: Builder, records: *mut u32, records_len: usize, text: *mut u8, text_len: usize, holder: u32, name: *const u8,
        name_len: usize, value: *const u8, value_len: usize,
    ) -> Built;
    fn kerzhoma_add_extra(
        builder: Builder, records: *mut u32, records_len: usize, text: *mut u8, text_len: usize, holder: u32, key: *const u8,
        key_len: usize, value: *const u8, value_len: usize,
    ) -> Built;
    fn kerzhoma_set_text(
        builder: Builder, records: *mut u32, records_len: usize, text: *mut u8, text_len: usize, element: u32, field: u32,
        s: *const u8, s_len: usize,
    ) -> Built;
    fn kerzhoma_set_output_lossy(
        builder: Builder, records: *mut u32, records_len: usize, text: *mut u8, text_len: usize, element: u32, field: u32,
        s: *const u8, s_len: usize,
    ) -> Built;
    fn kerzhoma_set_timestamp(
        builder: Builder, records: *mut u32, records_len: usize, text: *mut u8, text_len: usize, element: u32, moment: Moment,
    ) -> Built;
    fn kerzhoma_set_time(
        builder: Builder, records: *mut u32, records_len: usize, text: *mut u8, text_len: usize, element: u32, seconds: u32,
        nanos: u32,
    ) -> Built;
    fn kerzhoma_set_uuid(
        builder: Builder, records: *mut u32, records_len: usize, text: *mut u8, text_len: usize, uuid: Uuid,
    ) -> Built;
    fn kerzhoma_set_number(
        builder: Builder, records: *mut u32, records_len: usize, text: *mut u8, text_len: usize, field: u32, n: u64,
    ) -> Built;
    fn kerzhoma_set_rerun_kind(
        builder: Builder, records: *mut u32, records_len: usize, text: *mut u8, text_len: usize, family: u32,
    ) -> Built;
    fn kerzhoma_finish_report(builder: Builder, records: *mut u32, records_len: usize, text: *mut u8, text_len: usize) -> Built;
    fn kerzhoma_refusal_byte(
        refusal: Refusal, events: *const u32, events_len: usize, attributes: *const u32, attributes_len: usize, source: *const u8,
        source_len: usize,
    ) -> usize;
    fn kerzhoma_case_tags(events: *const u32, events_len: usize, source: *const u8, source_len: usize) -> usize;
}

pub fn tokenize(source: &[u8], events: &mut [u32], attributes: &mut [u32]) -> Tokenized {
    unsafe {
        kerzhoma_tokenize(
            source.as_ptr(),
            source.len(),
            events.as_mut_ptr(),
            events.len(),
            attributes.as_mut_ptr(),
            attributes.len(),
        )
    }
}

pub fn list_xml(
    source: &[u8], events: &mut [u32], attributes: &mut [u32], records: &mut [u32], text: &mut [u8], scratch: &mut [u8],
    out: &mut [u8],
) -> usize {
    unsafe {
        kerzhoma_list_xml(
            source.as_ptr(),
            source.len(),
            events.as_mut_ptr(),
            events.len(),
            attributes.as_mut_ptr(),
            attributes.len(),
            records.as_mut_ptr(),
            records.len(),
            text.as_mut_ptr(),
            text.len(),
            scratch.as_mut_ptr(),
            scratch.len(),
            out.as_mut_ptr(),
            out.len(),
        )
    }
}

pub fn explain_xml(source: &[u8], number: u32, byte: u32, events: usize, attributes: usize, out: &mut [u8]) -> usize {
    unsafe { kerzhoma_explain_xml(source.as_ptr(), source.len(), number, byte, events, attributes, out.as_mut_ptr(), out.len()) }
}

pub fn read(
    events: &[u32], attributes: &[u32], source: &[u8], records: &mut [u32], text: &mut [u8], scratch: &mut [u8],
) -> Refusal {
    unsafe {
        kerzhoma_read(
            events.as_ptr(),
            events.len(),
            attributes.as_ptr(),
            attributes.len(),
            source.as_ptr(),
            source.len(),
            records.as_mut_ptr(),
            records.len(),
            text.as_mut_ptr(),
            text.len(),
            scratch.as_mut_ptr(),
            scratch.len(),
        )
    }
}

pub fn list(records: &[u32], text: &[u8], out: &mut [u8]) -> Listing {
    unsafe { kerzhoma_list(records.as_ptr(), records.len(), text.as_ptr(), text.len(), out.as_mut_ptr(), out.len()) }
}

pub fn read_and_list(
    events: &[u32], attributes: &[u32], source: &[u8], records: &mut [u32], text: &mut [u8], scratch: &mut [u8], out: &mut [u8],
) -> Listing {
    unsafe {
        kerzhoma_read_and_list(
            events.as_ptr(),
            events.len(),
            attributes.as_ptr(),
            attributes.len(),
            source.as_ptr(),
            source.len(),
            records.as_mut_ptr(),
            records.len(),
            text.as_mut_ptr(),
            text.len(),
            scratch.as_mut_ptr(),
            scratch.len(),
            out.as_mut_ptr(),
            out.len(),
        )
    }
}

pub fn public_listing(
    events: &[u32], attributes: &[u32], source: &[u8], records: &mut [u32], text: &mut [u8], scratch: &mut [u8], out: &mut [u8],
) -> usize {
    unsafe {
        kerzhoma_public_listing(
            events.as_ptr(),
            events.len(),
            attributes.as_ptr(),
            attributes.len(),
            source.as_ptr(),
            source.len(),
            records.as_mut_ptr(),
            records.len(),
            text.as_mut_ptr(),
            text.len(),
            scratch.as_mut_ptr(),
            scratch.len(),
            out.as_mut_ptr(),
            out.len(),
        )
    }
}

pub fn is_layout(records: &[u32], text: &[u8]) -> bool {
    unsafe { kerzhoma_is_layout(records.as_ptr(), records.len(), text.as_ptr(), text.len()) }
}

pub fn write(records: &[u32], text: &[u8], events: &mut [u32], attributes: &mut [u32], bytes: &mut [u8]) -> Writing {
    unsafe {
        kerzhoma_write(
            records.as_ptr(),
            records.len(),
            text.as_ptr(),
            text.len(),
            events.as_mut_ptr(),
            events.len(),
            attributes.as_mut_ptr(),
            attributes.len(),
            bytes.as_mut_ptr(),
            bytes.len(),
        )
    }
}

pub fn rehearse(
    cases: u64, failures: u64, errors: u64, skipped: u64, flaky: u64, events: &mut [u32], attributes: &mut [u32], bytes: &mut [u8],
) -> Writing {
    unsafe {
        kerzhoma_rehearse(
            cases,
            failures,
            errors,
            skipped,
            flaky,
            events.as_mut_ptr(),
            events.len(),
            attributes.as_mut_ptr(),
            attributes.len(),
            bytes.as_mut_ptr(),
            bytes.len(),
        )
    }
}

pub fn write_xml(records: &[u32], text: &[u8], out: &mut [u8]) -> Document {
    unsafe { kerzhoma_write_xml(records.as_ptr(), records.len(), text.as_ptr(), text.len(), out.as_mut_ptr(), out.len()) }
}

pub fn explain(refusal: Refusal, lent: usize, events: &[u32], attributes: &[u32], source: &[u8], out: &mut [u8]) -> Explained {
    unsafe {
        kerzhoma_explain(
            refusal,
            lent,
            events.as_ptr(),
            events.len(),
            attributes.as_ptr(),
            attributes.len(),
            source.as_ptr(),
            source.len(),
            out.as_mut_ptr(),
            out.len(),
        )
    }
}

pub fn time_text(out: &mut [u8], seconds: u32, nanos: u32) -> usize {
    unsafe { kerzhoma_time_text(out.as_mut_ptr(), out.len(), seconds, nanos) }
}

pub fn starts(records: &[u32], text: &[u8]) -> Started {
    unsafe { kerzhoma_starts(records.as_ptr(), records.len(), text.as_ptr(), text.len()) }
}

pub fn merge(
    first: &[u32], first_text: &[u8], second: &[u32], second_text: &[u8], records: &mut [u32], text: &mut [u8],
) -> Refusal {
    unsafe {
        kerzhoma_merge(
            first.as_ptr(),
            first.len(),
            first_text.as_ptr(),
            first_text.len(),
            second.as_ptr(),
            second.len(),
            second_text.as_ptr(),
            second_text.len(),
            records.as_mut_ptr(),
            records.len(),
            text.as_mut_ptr(),
            text.len(),
        )
    }
}

pub fn add_case(counts: Counts, outcome: u32) -> Counted {
    unsafe { kerzhoma_add_case(counts, outcome) }
}

pub fn add_suite(counts: Counts, suite: Counts) -> Counted {
    unsafe { kerzhoma_add_suite(counts, suite) }
}

pub fn release_sheet(records: &[Counts]) -> Released {
    unsafe { kerzhoma_release_sheet(records.as_ptr(), records.len()) }
}

pub fn print_sheet(records: &[Counts], out: &mut [u8]) -> Printed {
    unsafe { kerzhoma_print_sheet(records.as_ptr(), records.len(), out.as_mut_ptr(), out.len()) }
}

pub fn new_report(records: &mut [u32], text: &mut [u8], name: &[u8]) -> Built {
    unsafe { kerzhoma_new_report(records.as_mut_ptr(), records.len(), text.as_mut_ptr(), text.len(), name.as_ptr(), name.len()) }
}

pub fn unnamed_report(records: &mut [u32], text: &mut [u8]) -> Built {
    unsafe { kerzhoma_unnamed_report(records.as_mut_ptr(), records.len(), text.as_mut_ptr(), text.len()) }
}

pub fn add_test_suite(builder: Builder, records: &mut [u32], text: &mut [u8], name: &[u8]) -> Built {
    unsafe {
        kerzhoma_add_test_suite(
            builder,
            records.as_mut_ptr(),
            records.len(),
            text.as_mut_ptr(),
            text.len(),
            name.as_ptr(),
            name.len(),
        )
    }
}

pub fn add_test_case(builder: Builder, records: &mut [u32], text: &mut [u8], name: &[u8], outcome: u32) -> Built {
    unsafe {
        kerzhoma_add_test_case(
            builder,
            records.as_mut_ptr(),
            records.len(),
            text.as_mut_ptr(),
            text.len(),
            name.as_ptr(),
            name.len(),
            outcome,
        )
    }
}

pub fn add_rerun(builder: Builder, records: &mut [u32], text: &mut [u8], kind: u32) -> Built {
    unsafe { kerzhoma_add_rerun(builder, records.as_mut_ptr(), records.len(), text.as_mut_ptr(), text.len(), kind) }
}

pub fn add_property(builder: Builder, records: &mut [u32], text: &mut [u8], holder: u32, name: &[u8], value: &[u8]) -> Built {
    unsafe {
        kerzhoma_add_property(
            builder,
            records.as_mut_ptr(),
            records.len(),
            text.as_mut_ptr(),
            text.len(),
            holder,
            name.as_ptr(),
            name.len(),
            value.as_ptr(),
            value.len(),
        )
    }
}

pub fn add_extra(builder: Builder, records: &mut [u32], text: &mut [u8], holder: u32, key: &[u8], value: &[u8]) -> Built {
    unsafe {
        kerzhoma_add_extra(
            builder,
            records.as_mut_ptr(),
            records.len(),
            text.as_mut_ptr(),
            text.len(),
            holder,
            key.as_ptr(),
            key.len(),
            value.as_ptr(),
            value.len(),
        )
    }
}

pub fn set_text(builder: Builder, records: &mut [u32], text: &mut [u8], element: u32, field: u32, s: &[u8]) -> Built {
    unsafe {
        kerzhoma_set_text(
            builder,
            records.as_mut_ptr(),
            records.len(),
            text.as_mut_ptr(),
            text.len(),
            element,
            field,
            s.as_ptr(),
            s.len(),
        )
    }
}

pub fn set_output_lossy(builder: Builder, records: &mut [u32], text: &mut [u8], element: u32, field: u32, s: &[u8]) -> Built {
    unsafe {
        kerzhoma_set_output_lossy(
            builder,
            records.as_mut_ptr(),
            records.len(),
            text.as_mut_ptr(),
            text.len(),
            element,
            field,
            s.as_ptr(),
            s.len(),
        )
    }
}

pub fn set_timestamp(builder: Builder, records: &mut [u32], text: &mut [u8], element: u32, moment: Moment) -> Built {
    unsafe { kerzhoma_set_timestamp(builder, records.as_mut_ptr(), records.len(), text.as_mut_ptr(), text.len(), element, moment) }
}

pub fn set_time(builder: Builder, records: &mut [u32], text: &mut [u8], element: u32, seconds: u32, nanos: u32) -> Built {
    unsafe {
        kerzhoma_set_time(builder, records.as_mut_ptr(), records.len(), text.as_mut_ptr(), text.len(), element, seconds, nanos)
    }
}

pub fn set_uuid(builder: Builder, records: &mut [u32], text: &mut [u8], uuid: Uuid) -> Built {
    unsafe { kerzhoma_set_uuid(builder, records.as_mut_ptr(), records.len(), text.as_mut_ptr(), text.len(), uuid) }
}

pub fn set_number(builder: Builder, records: &mut [u32], text: &mut [u8], field: u32, n: u64) -> Built {
    unsafe { kerzhoma_set_number(builder, records.as_mut_ptr(), records.len(), text.as_mut_ptr(), text.len(), field, n) }
}

pub fn set_rerun_kind(builder: Builder, records: &mut [u32], text: &mut [u8], family: u32) -> Built {
    unsafe { kerzhoma_set_rerun_kind(builder, records.as_mut_ptr(), records.len(), text.as_mut_ptr(), text.len(), family) }
}

pub fn finish_report(builder: Builder, records: &mut [u32], text: &mut [u8]) -> Built {
    unsafe { kerzhoma_finish_report(builder, records.as_mut_ptr(), records.len(), text.as_mut_ptr(), text.len()) }
}

pub fn refusal_byte(refusal: Refusal, events: &[u32], attributes: &[u32], source: &[u8]) -> usize {
    unsafe {
        kerzhoma_refusal_byte(
            refusal,
            events.as_ptr(),
            events.len(),
            attributes.as_ptr(),
            attributes.len(),
            source.as_ptr(),
            source.len(),
        )
    }
}

pub fn case_tags(events: &[u32], source: &[u8]) -> usize {
    unsafe { kerzhoma_case_tags(events.as_ptr(), events.len(), source.as_ptr(), source.len()) }
}

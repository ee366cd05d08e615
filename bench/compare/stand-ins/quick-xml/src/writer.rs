//! Records the events that `serialize_report` writes, and spells out the bytes as quick_xml's indenting writer does: a newline and the
//! level's spaces before each tag and declaration but the first, unless a text stands before it.
use crate::events::*;
use std::{cell::RefCell, io};

#[derive(Clone, Debug, PartialEq, Eq)]
pub struct Written {
    pub kind: u32,
    /// A tag's name, a text, or what stands in the declaration.
    pub bytes: Vec<u8>,
    pub attributes: Vec<(Vec<u8>, Vec<u8>)>,
}

thread_local! {
    static WRITTEN: RefCell<Vec<Written>> = const { RefCell::new(Vec::new()) };
}

pub fn take_written() -> Vec<Written> {
    WRITTEN.with(|w| std::mem::take(&mut *w.borrow_mut()))
}

fn record(kind: u32, bytes: &[u8], attributes: Vec<(Vec<u8>, Vec<u8>)>) {
    WRITTEN.with(|w| w.borrow_mut().push(Written { kind, bytes: bytes.to_vec(), attributes }));
}

pub struct Writer<W> {
    inner: W,
    unit: Vec<u8>,
    level: usize,
    breaks: bool,
}

impl<W: io::Write> Writer<W> {
    pub fn new_with_indent(inner: W, c: u8, size: usize) -> Self {
        Writer { inner, unit: vec![c; size], level: 0, breaks: false }
    }

    fn newline(&mut self) -> io::Result<()> {
        self.inner.write_all(b"\n")?;
        (0..self.level).try_for_each(|_| self.inner.write_all(&self.unit))
    }

    fn wrapped(&mut self, open: &[u8], bytes: &[u8], close: &[u8]) -> io::Result<()> {
        if self.breaks {
            self.newline()?;
        }
        [open, bytes, close].iter().try_for_each(|part| self.inner.write_all(part))
    }

    pub fn write_event(&mut self, event: Event<'_>) -> io::Result<()> {
        let mut breaks = true;
        match event {
            Event::Start(tag) => {
                self.wrapped(b"<", &spelled(&tag), b">")?;
                self.level += 1;
                record(0, tag.name().0, tag.written.clone());
            }
            Event::Empty(tag) => {
                self.wrapped(b"<", &spelled(&tag), b"/>")?;
                record(1, tag.name().0, tag.written.clone());
            }
            Event::End(tag) => {
                self.level = self.level.saturating_sub(1);
                self.wrapped(b"</", tag.name().0, b">")?;
                record(2, tag.name().0, vec![]);
            }
            Event::Text(text) => {
                breaks = false;
                self.inner.write_all(&text.bytes)?;
                record(3, &text.bytes, vec![]);
            }
            Event::Decl(declaration) => {
                self.wrapped(b"<?", declaration.content.as_bytes(), b"?>")?;
                record(6, declaration.content.as_bytes(), vec![]);
            }
            Event::Eof => record(7, b"", vec![]),
            _ => panic!("serialize_report writes no such event"),
        }
        self.breaks = breaks;
        Ok(())
    }

    pub fn write_indent(&mut self) -> io::Result<()> {
        self.newline()?;
        record(9, b"", vec![]);
        Ok(())
    }
}

fn spelled(tag: &BytesStart<'_>) -> Vec<u8> {
    let mut out = tag.name().0.to_vec();
    for (key, value) in &tag.written {
        out.push(b' ');
        out.extend_from_slice(key);
        out.extend_from_slice(b"=\"");
        out.extend_from_slice(value);
        out.push(b'"');
    }
    out
}

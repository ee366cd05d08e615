//! A tokenizer that checks little, as `quick_xml` does: no nesting, a faulty attribute gets mark 1, broken markup a Fault. So documents that
//! aren't well formed become tables, too.
use crate::table::Table;

struct Lenient<'a> {
    source: &'a [u8],
    at: usize,
    table: Table,
}

fn is_white(c: u8) -> bool {
    matches!(c, b' ' | b'\t' | b'\n' | b'\r')
}

pub fn tokenized(source: &[u8]) -> Table {
    let at = if source.starts_with(b"\xef\xbb\xbf") { 3 } else { 0 };
    let mut l = Lenient { source, at, table: Table { source: source.to_vec(), ..Default::default() } };
    while l.at < source.len() {
        if l.step().is_none() {
            l.event(8, 0, 0);
            break;
        }
    }
    l.event(7, 0, 0);
    l.table
}

fn part(start: usize, end: usize) -> (u32, u32) {
    if end > start {
        (start as u32, (end - start) as u32)
    } else {
        (0, 0)
    }
}

impl Lenient<'_> {
    fn event(&mut self, kind: u32, start: usize, end: usize) {
        let (start, length) = part(start, end);
        self.table.events.push([kind, start, length, 0, 0]);
    }

    fn find(&self, from: usize, token: &[u8]) -> Option<usize> {
        self.source.get(from..)?.windows(token.len()).position(|w| w == token).map(|p| from + p)
    }

    fn step(&mut self) -> Option<()> {
        const MARKS: [(&[u8], &[u8], u32); 6] = [
            (b"<!--", b"-->", 6),
            (b"<![CDATA[", b"]]>", 4),
            (b"<?", b"?>", 6),
            (b"<!", b">", 6),
            (b"</", b">", 2),
            (b"&", b";", 5),
        ];
        let rest = &self.source[self.at..];
        if let Some((open, close, kind)) = MARKS.into_iter().find(|m| rest.starts_with(m.0)) {
            let start = self.at + open.len();
            let end = self.find(start, close)?;
            let mut last = end;
            while kind == 2 && last > start && is_white(self.source[last - 1]) {
                last -= 1;
            }
            self.event(kind, start, last);
            self.at = end + close.len();
            return Some(());
        }
        if rest[0] == b'<' {
            return self.tag();
        }
        let end = rest.iter().position(|c| matches!(c, b'<' | b'&')).map_or(self.source.len(), |n| self.at + n);
        self.event(3, self.at, end);
        self.at = end;
        Some(())
    }

    fn run(&self, from: usize, stops: impl Fn(u8) -> bool) -> usize {
        self.source[from..].iter().position(|c| stops(*c)).map_or(self.source.len(), |n| from + n)
    }

    fn tag(&mut self) -> Option<()> {
        let (s, first) = (self.source, self.table.attributes.len());
        let name = self.at + 1;
        let name_end = self.run(name, |c| is_white(c) || matches!(c, b'>' | b'/'));
        let mut at = name_end;
        let kind = loop {
            at = self.run(at, |c| !is_white(c));
            match s.get(at..) {
                Some([b'>', ..]) => break 0,
                Some([b'/', b'>', ..]) => break 1,
                Some([_, ..]) => at = self.attribute(at),
                _ => {
                    self.table.attributes.truncate(first);
                    return None;
                }
            }
        };
        let n = self.table.attributes.len() - first;
        let (start, length) = part(name, name_end);
        self.table.events.push([kind, start, length, if n == 0 { 0 } else { first as u32 }, n as u32]);
        self.at = at + 1 + kind as usize;
        Some(())
    }

    /// The attribute at a byte, and where it ends.
    fn attribute(&mut self, key: usize) -> usize {
        let s = self.source;
        let key_end = self.run(key, |c| is_white(c) || matches!(c, b'=' | b'>' | b'/'));
        let equals = self.run(key_end, |c| !is_white(c));
        let (start, length) = part(key, key_end);
        let value = (s.get(equals) == Some(&b'=')).then(|| self.run(equals + 1, |c| !is_white(c)));
        if let Some((at, quote)) = value.and_then(|v| Some((v, *s.get(v)?))) {
            if let (b'"' | b'\'', Some(end)) = (quote, self.find(at + 1, &[quote])) {
                let (value, value_length) = part(at + 1, end);
                self.table.attributes.push([0, start, length, value, value_length]);
                return end + 1;
            }
        }
        self.table.attributes.push([1, start, length, 0, 0]);
        key_end.max(key + 1)
    }
}

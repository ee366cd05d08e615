//! XML documents by seed: reports and other documents, and what is left of them when bytes go, come or change.
use crate::random::Random;

const NAMES: [&str; 20] = [
    "testsuites",
    "testsuite",
    "testcase",
    "failure",
    "system-out",
    "properties",
    "property",
    "skipped",
    "a",
    "b",
    "x",
    "é",
    "б",
    "a:b",
    "x.y",
    "_",
    "日本",
    "a-b",
    ":",
    "n\u{b7}",
];
const KEYS: [&str; 15] =
    ["name", "time", "tests", "message", "type", "timestamp", "a", "b", "xml:lang", "é", "x.y", "A", "_", "value", "id"];
/// Names of the fifth edition alone.
const LATER: [&str; 5] = ["\u{10000}n", "\u{370}", "n\u{2040}", "\u{feff}", "a\u{200c}"];
const VALUES: [&str; 26] = [
    "",
    "a",
    "1.5",
    "0",
    "a&lt;b",
    "&amp;",
    "&#65;",
    "&#x1F600;",
    "ü",
    "日本",
    " ",
    "\t",
    "\n",
    "\r\n",
    "\r",
    ">",
    "]]>",
    "a b",
    "&quot;",
    "&apos;",
    "2024-02-29T23:59:59Z",
    "&#xD;&#10;",
    "/",
    "=",
    "&#9;",
    "?",
];
const TEXTS: [&str; 22] = [
    "a",
    "bc ",
    "\n",
    "\r\n",
    "\r",
    "&lt;",
    "&#233;",
    "é",
    "日本",
    "😀",
    "]]",
    "]",
    ">",
    "&amp;",
    "x",
    "  ",
    "&#x10FFFF;",
    "&gt;",
    "\t",
    "]&gt;",
    "&#13;",
    "\u{fffd}",
];
const TOKENS: [&[u8]; 72] = [
    b"<",
    b">",
    b"&",
    b";",
    b"/",
    b"/>",
    b"</",
    b"<a>",
    b"</a>",
    b"<a/>",
    b"<!--",
    b"-->",
    b"--",
    b"-",
    b"<!",
    b"<![CDATA[",
    b"]]>",
    b"]]",
    b"]",
    b"<?",
    b"?>",
    b"?",
    b"<?xml",
    b"<?xml version=\"1.0\"?>",
    b"<?xml version='1.0' encoding='utf-8'?>",
    b"<?p d?>",
    b"<!DOCTYPE",
    b"<!DOCTYPE a>",
    b"<!DOCTYP",
    b"<!ELEMENT",
    b"=",
    b"\"",
    b"'",
    b" ",
    b"\n",
    b"\r",
    b"\t",
    b"\0",
    b"\x01",
    b"\x0b",
    b"\x7f",
    b"\xc2\x85",
    b"\xe2\x80\xa8",
    b"\xef\xbf\xbe",
    b"\xef\xbf\xbf",
    b"\xef\xbb\xbf",
    b"\xff",
    b"\xc0\x80",
    b"\xed\xa0\x80",
    b"\xe2\x82",
    b"\xf4\x90\x80\x80",
    b"&x;",
    b"&#0;",
    b"&#xD800;",
    b"&#x110000;",
    b"&#;",
    b"&#x;",
    b"&#X41;",
    b"&amp",
    b"1",
    b"-a",
    b".a",
    b":",
    b"\xc2\xb7",
    b"\xc3\x97",
    b"\xcd\xbe",
    b"xml",
    b"XML",
    b" a=''",
    b" a=\"<\"",
    b"version",
    b"standalone='yes'",
];

pub struct Documents<'a> {
    pub r: Random<'a>,
}

impl Documents<'_> {
    pub fn document(&mut self) -> Vec<u8> {
        let mut out = String::new();
        self.head(&mut out);
        let depth = self.r.below(5);
        self.element(&mut out, depth);
        self.misc(&mut out);
        let mut out = out.into_bytes();
        if self.r.one(2) {
            for _ in 0..1 + self.r.below(3) {
                self.change(&mut out);
            }
        }
        out
    }

    fn head(&mut self, out: &mut String) {
        if self.r.one(10) {
            out.push('\u{feff}');
        }
        if self.r.one(2) {
            let quote = self.quote();
            let version = *self.r.pick(&["1.0", "1.0", "1.0", "1.1", "1.10", "2.0", "1."]);
            out.push_str(&format!("<?xml version{}{quote}{version}{quote}", self.equals()));
            if self.r.one(2) {
                let encoding = *self.r.pick(&["UTF-8", "utf-8", "Utf-8", "UTF-8", "ISO-8859-1", "UTF-16"]);
                out.push_str(&format!(" encoding{}{quote}{encoding}{quote}", self.equals()));
            }
            if self.r.one(3) {
                let answer = *self.r.pick(&["yes", "no", "no", "Yes"]);
                out.push_str(&format!(" standalone{}{quote}{answer}{quote}", self.equals()));
            }
            out.push_str(if self.r.one(3) { " ?>" } else { "?>" });
        }
        self.misc(out);
        if self.r.one(40) {
            out.push_str("<!DOCTYPE testsuites>");
        }
    }

    fn equals(&mut self) -> &'static str {
        *self.r.pick(&["=", "=", " =", "= ", "\n=\t"])
    }

    fn quote(&mut self) -> char {
        if self.r.one(2) {
            '"'
        } else {
            '\''
        }
    }

    /// What may stand outside the root.
    fn misc(&mut self, out: &mut String) {
        while self.r.one(3) {
            match self.r.below(3) {
                0 => out.push_str(*self.r.pick(&[" ", "\n", "\r\n", "\t"])),
                1 => self.comment(out),
                _ => self.instruction(out),
            }
        }
    }

    fn comment(&mut self, out: &mut String) {
        let inside = *self.r.pick(&["", " c ", "é-é", "<a>&x;", "\r\n", "a-b", "\t]]>"]);
        out.push_str(&format!("<!--{inside}-->"));
    }

    fn instruction(&mut self, out: &mut String) {
        let inside = *self.r.pick(&["p", "p d", "x-y  two words", "q ?", "q ??", "é\r\nb", "xmlx a", "p <&"]);
        out.push_str(&format!("<?{inside}?>"));
    }

    fn attributes(&mut self, out: &mut String) {
        let mut keys: Vec<&str> = vec![];
        while self.r.one(2) && keys.len() < 6 {
            let key = if self.r.one(60) { *self.r.pick(&LATER) } else { *self.r.pick(&KEYS) };
            if keys.contains(&key) && !self.r.one(10) {
                break;
            }
            keys.push(key);
            let quote = self.quote();
            let value = match (*self.r.pick(&VALUES), self.r.one(30)) {
                (_, true) => *self.r.pick(&["&x;", "&#0;", "&#xFFFE;", "&nbsp;", "&#xD800;"]),
                (v, _) if v.contains(quote) => "",
                (v, _) => v,
            };
            let space = *self.r.pick(&[" ", " ", "\n", "  ", "\r\n"]);
            out.push_str(&format!("{space}{key}{}{quote}{value}{quote}", self.equals()));
        }
        if self.r.one(5) {
            out.push(' ');
        }
    }

    fn element(&mut self, out: &mut String, depth: u64) {
        let name = if self.r.one(60) { *self.r.pick(&LATER) } else { *self.r.pick(&NAMES) };
        out.push('<');
        out.push_str(name);
        self.attributes(out);
        if depth == 0 || self.r.one(4) {
            out.push_str("/>");
            return;
        }
        out.push('>');
        for _ in 0..self.r.below(5) {
            match self.r.below(10) {
                0..=3 => self.element(out, depth - 1),
                4..=6 => {
                    for _ in 0..self.r.below(4) {
                        out.push_str(*self.r.pick(&TEXTS));
                    }
                }
                7 => {
                    let inside = *self.r.pick(&["", "a", "]", "]]", "<&é", "\r\n", "&amp;", ">"]);
                    out.push_str(&format!("<![CDATA[{inside}]]>"));
                }
                8 => self.comment(out),
                _ => {
                    if self.r.one(6) {
                        out.push_str(*self.r.pick(&["&x;", "&#0;", "&nbsp;", "&#xFFFF;", "&é;"]));
                    } else {
                        self.instruction(out);
                    }
                }
            }
        }
        out.push_str("</");
        out.push_str(name);
        if self.r.one(6) {
            out.push_str(*self.r.pick(&[" ", "\n"]));
        }
        out.push('>');
    }

    /// One change of bytes.
    pub fn change(&mut self, out: &mut Vec<u8>) {
        let (n, r) = (out.len(), &mut self.r);
        if n == 0 {
            out.extend_from_slice(*r.pick(&TOKENS));
            return;
        }
        let (i, j) = (r.index(n), r.index(n));
        match r.below(8) {
            0 => drop(out.drain(i..(i + 1 + r.index(4)).min(n))),
            1..=3 => drop(out.splice(i..i, r.pick(&TOKENS).iter().copied())),
            4 => out[i] = *r.pick(b"<>&;'\"= /?!-[]ax1:.\n\0\x80\xff"),
            5 => out.truncate(i),
            6 => {
                let part = out[i.min(j)..i.max(j)].iter().copied().take(40).collect::<Vec<_>>();
                drop(out.splice(i..i, part));
            }
            _ => drop(out.splice(i..(i + r.index(3)).min(n), r.pick(&TOKENS).iter().copied())),
        }
    }
}

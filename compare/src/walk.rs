//! A file walked by our readers and written as the oracle writes the Rust's result. Where docs/DIFFERENCES.md says that the Rust answers otherwise,
//! the Rust's answer is predicted from ours, and the line's number is counted.
use crate::dralovika::{Answer, File, NOTHING};
use crate::{json, raw};
use std::collections::BTreeMap;
use std::fmt::Write;

pub enum Stop {
    /// The Rust's answer to the whole file, predicted.
    Predicted(String),
    /// A reader refused, or answered none, on an accepted file: a fault of ours.
    Fault(String),
}

type Done = Result<(), Stop>;
type Words = [u64; 19];

#[derive(Default, Clone)]
pub struct Tally {
    /// How often each line of docs/DIFFERENCES.md changed an answer.
    pub lines: BTreeMap<u32, u64>,
    /// How many of each kind were written.
    pub kinds: BTreeMap<&'static str, u64>,
}

impl Tally {
    pub fn add(&mut self, other: &Tally) {
        for (k, n) in &other.lines {
            *self.lines.entry(*k).or_default() += n;
        }
        for (k, n) in &other.kinds {
            *self.kinds.entry(k).or_default() += n;
        }
    }
}

/// The result: what the oracle prints, if every prediction is right.
pub struct Walked {
    pub line: String,
    pub tally: Tally,
}

pub struct Walk<'a> {
    file: File<'a>,
    big: bool,
    start: usize,
    end: usize,
    texts: Vec<String>,
    types: Vec<usize>,
    protos: Vec<String>,
    fields: Vec<String>,
    methods: Vec<String>,
    tally: Tally,
}

fn got(what: &str, answer: Answer) -> Result<Words, Stop> {
    match answer {
        Answer::Words(w) => Ok(w),
        Answer::Nothing => Err(Stop::Fault(format!("{what}: none"))),
        Answer::Refused(r) => Err(Stop::Fault(format!("{what}: refused with {} at {}", r.number, r.place))),
    }
}

fn maybe(what: &str, answer: Answer) -> Result<Option<Words>, Stop> {
    match answer {
        Answer::Nothing => Ok(None),
        other => got(what, other).map(Some),
    }
}

fn count(what: &str, answer: Answer) -> Result<u32, Stop> {
    Ok(got(what, answer)?[0] as u32)
}

macro_rules! put { ($o:expr, $($a:tt)*) => { let _ = write!($o, $($a)*); } }

const CLASS: usize = 0;
const FIELD: usize = 1;
const METHOD: usize = 2;

/// The Rust's names of the bits 0 to 17, by whose flags they are.
fn flag_name(bit: u8, whose: usize) -> &'static str {
    match (bit, whose) {
        (6, FIELD) => "ACC_VOLATILE",
        (6, _) => "ACC_BRIDGE",
        (7, FIELD) => "ACC_TRANSIENT",
        (7, _) => "ACC_VARARGS",
        _ => {
            [
                "ACC_PUBLIC", "ACC_PRIVATE", "ACC_PROTECTED", "ACC_STATIC", "ACC_FINAL", "ACC_SYNCHRONIZED", "", "", "ACC_NATIVE",
                "ACC_INTERFACE", "ACC_ABSTRACT", "ACC_STRICT", "ACC_SYNTHETIC", "ACC_ANNOTATION", "ACC_ENUM", "UNUSED", "ACC_CONSTRUCTOR",
                "ACC_DECLARED_SYNCHRONIZED",
            ][bit as usize]
        }
    }
}

/// The Rust's name of a byte of a line program.
fn opcode(byte: u8) -> String {
    let named = [
        "DBG_END_SEQUENCE", "DBG_ADVANCE_PC", "DBG_ADVANCE_LINE", "DBG_START_LOCAL", "DBG_START_LOCAL_EXTENDED", "DBG_END_LOCAL",
        "DBG_RESTART_LOCAL", "DBG_SET_PROLOGUE_END", "DBG_SET_EPILOGUE_BEGIN", "DBG_SET_FILE",
    ];
    match named.get(byte as usize) {
        Some(name) => name.to_string(),
        None => format!("SPECIAL_OPCODE({byte})"),
    }
}

/// The 16-bit units of a text's bytes, which our reader has judged.
fn units_of(bytes: &[u8]) -> Vec<u16> {
    let mut units = vec![];
    let mut i = 0;
    while i < bytes.len() {
        let (b, more) = (bytes[i] as u16, |k: usize| bytes[i + k] as u16 & 0x3f);
        let (unit, width) = match b {
            0..=0x7f => (b, 1),
            0xc0..=0xdf => ((b & 0x1f) << 6 | more(1), 2),
            _ => ((b & 0x0f) << 12 | more(1) << 6 | more(2), 3),
        };
        units.push(unit);
        i += width;
    }
    units
}

/// None where our check refuses the file.
pub fn walk(bytes: &[u8]) -> Option<Result<Walked, String>> {
    let file = File { bytes };
    if let Answer::Refused(_) = file.dralovika_check() {
        return None;
    }
    let mut w = Walk { file, big: false, start: 0, end: 0, texts: vec![], types: vec![], protos: vec![], fields: vec![], methods: vec![], tally: Tally::default() };
    let mut out = String::new();
    let line = match w.whole(&mut out) {
        Ok(()) => out,
        Err(Stop::Predicted(line)) => line,
        Err(Stop::Fault(what)) => return Some(Err(what)),
    };
    Some(Ok(Walked { line, tally: w.tally }))
}

impl<'a> Walk<'a> {
    fn line(&mut self, number: u32) {
        *self.tally.lines.entry(number).or_default() += 1;
    }

    fn kind(&mut self, kind: &'static str) {
        *self.tally.kinds.entry(kind).or_default() += 1;
    }

    fn whole(&mut self, o: &mut String) -> Done {
        let f = self.file;
        let h = got("header", f.dralovika_header())?;
        self.big = h[1] == 1;
        (self.start, self.end) = (h[16] as usize, h[17] as usize);
        self.map(&h)?;
        put!(o, "{{\"ok\":{{\"header\":{{\"version\":{},\"checksum\":\"{}\",\"signature\":\"", h[0], h[2]);
        let s = got("signature", f.dralovika_signature())?;
        for b in &f.bytes[s[0] as usize..(s[0] + s[1]) as usize] {
            put!(o, "{b:02x}");
        }
        put!(o, "\",\"file_size\":{},\"endianness\":\"{}\"}},\"strings\":", f.bytes.len(), if self.big { "Big" } else { "Little" });
        json::list(o, h[4] as u32, |o, n| self.string(o, n))?;
        put!(o, ",\"types\":");
        json::list(o, h[6] as u32, |o, n| {
            let t = got("type", f.dralovika_type_name(n))?;
            self.types.push(t[0] as usize);
            json::text(o, &self.texts[t[0] as usize]);
            Ok(())
        })?;
        put!(o, ",\"protos\":");
        json::list(o, h[8] as u32, |o, n| self.proto(o, n))?;
        put!(o, ",\"fields\":");
        json::list(o, h[10] as u32, |o, n| self.field(o, n))?;
        put!(o, ",\"methods\":");
        json::list(o, h[12] as u32, |o, n| self.method(o, n))?;
        put!(o, ",\"classes\":");
        json::list(o, h[14] as u32, |o, c| self.class(o, c))?;
        o.push_str("}}");
        Ok(())
    }

    /// From version 038 on the Rust reads the map, and then what it takes for call sites and handles behind the class table.
    fn map(&mut self, h: &Words) -> Done {
        let f = self.file;
        let n = count("map count", f.dralovika_map_count())?;
        let mut kinds = vec![];
        for k in 0..n {
            let e = got("map entry", f.dralovika_map_entry(k))?;
            self.kind("map entries");
            kinds.push(e[0]);
        }
        let handles = count("handle count", f.dralovika_handle_count())?;
        for k in 0..handles {
            got("handle", f.dralovika_handle(k))?;
            self.kind("handles");
        }
        if h[0] < 38 {
            return Ok(());
        }
        if kinds.contains(&0xf000) {
            self.line(16);
            let rest = f.bytes.len() - h[3] as usize - 4;
            return Err(Stop::Predicted(format!("{{\"error\":\"could not parse file: parsing failed at byte <rest {rest} bytes>: parser Count\"}}")));
        }
        let mut left = f.bytes.len() - (h[15] + 32 * h[14]) as usize;
        for (kind, width) in [(7, 4), (8, 8)] {
            if kinds.contains(&kind) {
                if left < width {
                    self.line(9);
                    return Err(Stop::Predicted(ended(if kind == 7 { 4 } else { 2 })));
                }
                left -= width;
            }
        }
        Ok(())
    }

    fn string(&mut self, o: &mut String, n: u32) -> Done {
        let t = got("string", self.file.dralovika_string(n))?;
        let bytes = &self.file.bytes[t[0] as usize..(t[0] + t[1]) as usize];
        let units = units_of(bytes);
        if units.len() as u64 != t[2] {
            return Err(Stop::Fault(format!("string {n}: {} units, not {}", units.len(), t[2])));
        }
        self.kind(if units.iter().any(|u| (0xd800..0xe000).contains(u)) { "texts with surrogates (not compared)" } else { "texts" });
        let text = String::from_utf16_lossy(&units);
        json::text(o, &text);
        self.texts.push(text);
        Ok(())
    }

    fn type_text(&self, o: &mut String, n: u64) {
        json::text(o, &self.texts[self.types[n as usize]]);
    }

    fn proto(&mut self, o: &mut String, n: u32) -> Done {
        let f = self.file;
        let p = got("proto", f.dralovika_proto(n))?;
        let mut t = String::from("{\"shorty\":");
        json::text(&mut t, &self.texts[p[0] as usize]);
        t.push_str(",\"return\":");
        self.type_text(&mut t, p[1]);
        t.push_str(",\"params\":");
        let params = count("parameter count", f.dralovika_parameter_count(n))?;
        json::list(&mut t, params, |t, k| {
            let w = got("parameter", f.dralovika_parameter(n, k))?;
            self.type_text(t, w[0]);
            Ok(())
        })?;
        t.push('}');
        o.push_str(&t);
        self.protos.push(t);
        self.kind("protos");
        Ok(())
    }

    fn field(&mut self, o: &mut String, n: u32) -> Done {
        let m = got("field", self.file.dralovika_field(n))?;
        let mut t = String::from("{\"definer\":");
        self.type_text(&mut t, m[0]);
        t.push_str(",\"type\":");
        self.type_text(&mut t, m[1]);
        t.push_str(",\"name\":");
        json::text(&mut t, &self.texts[m[2] as usize]);
        t.push('}');
        o.push_str(&t);
        self.fields.push(t);
        self.kind("fields");
        Ok(())
    }

    fn method(&mut self, o: &mut String, n: u32) -> Done {
        let m = got("method", self.file.dralovika_method(n))?;
        let mut t = String::from("{\"definer\":");
        self.type_text(&mut t, m[0]);
        put!(t, ",\"proto\":{},\"name\":", self.protos[m[1] as usize]);
        json::text(&mut t, &self.texts[m[2] as usize]);
        t.push('}');
        o.push_str(&t);
        self.methods.push(t);
        self.kind("methods");
        Ok(())
    }

    fn flags(&mut self, o: &mut String, whose: usize, read: impl FnOnce(&mut [u8]) -> Answer) -> Done {
        let mut bits = [0; 18];
        let n = count("flags", read(&mut bits))?;
        json::list(o, n, |o, k| {
            put!(o, "\"{}\"", flag_name(bits[k as usize], whose));
            Ok(())
        })
    }

    fn class(&mut self, o: &mut String, c: u32) -> Done {
        let f = self.file;
        let w = got("class", f.dralovika_class(c))?;
        self.kind("classes");
        put!(o, "{{\"class\":");
        self.type_text(o, w[0]);
        put!(o, ",\"flags\":");
        self.flags(o, CLASS, |bits| f.dralovika_class_flags(c, bits))?;
        put!(o, ",\"superclass\":");
        match w[2] {
            NOTHING => o.push_str("null"),
            t => self.type_text(o, t),
        }
        put!(o, ",\"interfaces\":");
        let n = count("interface count", f.dralovika_interface_count(c))?;
        json::list(o, n, |o, k| {
            let t = got("interface", f.dralovika_interface(c, k))?;
            self.kind("interfaces");
            self.type_text(o, t[0]);
            Ok(())
        })?;
        put!(o, ",\"source_file\":");
        match w[4] {
            NOTHING => o.push_str("null"),
            s => json::text(o, &self.texts[s as usize]),
        }
        put!(o, ",\"annotations\":");
        self.directory(o, c)?;
        put!(o, ",\"class_data\":");
        self.class_data(o, c)?;
        put!(o, ",\"static_values\":");
        let n = count("static value count", f.dralovika_static_value_count(c))?;
        let mut at = if n > 0 { raw::past_leb(f.bytes, w[7] as usize) } else { 0 };
        json::list(o, n, |o, k| {
            let v = got("static value", f.dralovika_static_value(c, k))?;
            self.value(o, &v, at)?;
            at = raw::past_value(f.bytes, at);
            Ok(())
        })?;
        o.push('}');
        Ok(())
    }

    /// A value of ours, which stands at `at`.
    fn value(&mut self, o: &mut String, v: &Words, at: usize) -> Done {
        let n = v[1];
        match v[0] {
            0x00 => {
                self.kind("bytes");
                if (n as i64) < 0 {
                    self.line(3);
                }
                put!(o, "{{\"byte_u8\":{}}}", n as u8);
            }
            0x02 => {
                self.kind("shorts");
                put!(o, "{{\"short\":{}}}", n as i64);
            }
            0x03 => {
                self.kind("chars");
                put!(o, "{{\"char\":{n}}}");
            }
            0x04 => {
                self.kind("ints");
                put!(o, "{{\"int\":{}}}", n as i64);
            }
            0x06 => {
                self.kind("longs");
                put!(o, "{{\"long\":{}}}", n as i64);
            }
            0x10 => {
                self.kind("floats");
                put!(o, "{{\"float_bits\":\"{:08x}\"}}", self.lowered(n, 4, at));
            }
            0x11 => {
                self.kind("doubles");
                put!(o, "{{\"double_bits\":\"{:016x}\"}}", self.lowered(n, 8, at));
            }
            0x15 => {
                self.kind("proto values");
                put!(o, "{{\"method_type\":{}}}", self.protos[n as usize]);
            }
            0x16 => self.handle_value(o, n)?,
            0x17 => {
                self.kind("string values");
                put!(o, "{{\"string\":");
                json::text(o, &self.texts[n as usize]);
                o.push('}');
            }
            0x18 => {
                self.kind("type values");
                put!(o, "{{\"type\":");
                self.type_text(o, n);
                o.push('}');
            }
            0x19 => {
                self.kind("field values");
                put!(o, "{{\"field\":{}}}", self.fields[n as usize]);
            }
            0x1a => {
                self.kind("method values");
                put!(o, "{{\"method\":{}}}", self.methods[n as usize]);
            }
            0x1b => {
                self.kind("enum values");
                put!(o, "{{\"enum\":{}}}", self.fields[n as usize]);
            }
            0x1c => self.array(o, v)?,
            0x1d => {
                self.kind("annotation values");
                put!(o, "{{\"annotation\":{{\"type\":");
                self.body(o, v)?;
                o.push_str("}}");
            }
            0x1e => {
                self.kind("nulls");
                o.push_str("\"null_value\"");
            }
            0x1f => {
                self.kind("booleans");
                put!(o, "{{\"boolean\":{}}}", n == 1);
            }
            k => return Err(Stop::Fault(format!("value of kind {k}"))),
        }
        Ok(())
    }

    /// Line 2: a float of fewer bytes than its width has them low in the Rust.
    fn lowered(&mut self, bits: u64, width: u32, at: usize) -> u64 {
        let n = raw::argument(self.file.bytes, at) + 1;
        let there = bits >> (8 * (width - n));
        if there != bits {
            self.line(2);
        }
        there
    }

    /// Line 7: a handle's number is taken for a method's.
    fn handle_value(&mut self, o: &mut String, n: u64) -> Done {
        self.kind("handle values");
        self.line(7);
        match self.methods.get(n as usize) {
            Some(m) => {
                put!(o, "{{\"method_handle\":{m}}}");
                Ok(())
            }
            None => Err(Stop::Predicted(beyond(self.methods.len(), n as usize, "src/parser/encoded_value.rs:91"))),
        }
    }

    fn array(&mut self, o: &mut String, v: &Words) -> Done {
        let f = self.file;
        self.kind("arrays");
        let place = v[1] as usize;
        let a = got("array", f.dralovika_array(place))?;
        if a[1] != v[2] || raw::past_array(f.bytes, place) != place + v[2] as usize {
            return Err(Stop::Fault(format!("array at {place}: {} bytes, not {}", a[1], v[2])));
        }
        put!(o, "{{\"array\":");
        let mut at = raw::past_leb(f.bytes, place);
        json::list(o, a[0] as u32, |o, k| {
            let w = got("array value", f.dralovika_array_value(place, k))?;
            self.value(o, &w, at)?;
            at = raw::past_value(f.bytes, at);
            Ok(())
        })?;
        o.push('}');
        Ok(())
    }

    /// A nested annotation, from its type on.
    fn body(&mut self, o: &mut String, v: &Words) -> Done {
        let f = self.file;
        let place = v[1] as usize;
        let b = got("annotation body", f.dralovika_annotation_body(place))?;
        if b[2] != v[2] || raw::past_annotation(f.bytes, place) != place + v[2] as usize {
            return Err(Stop::Fault(format!("annotation at {place}: {} bytes, not {}", b[2], v[2])));
        }
        self.type_text(o, b[0]);
        put!(o, ",\"elements\":");
        self.elements(o, b[1] as u32, place, |k| f.dralovika_annotation_body_element(place, k))
    }

    /// The elements of the body at a place.
    fn elements(&mut self, o: &mut String, n: u32, place: usize, read: impl Fn(u32) -> Answer) -> Done {
        let bytes = self.file.bytes;
        let mut at = raw::past_leb(bytes, raw::past_leb(bytes, place));
        json::list(o, n, |o, k| {
            let e = got("element", read(k))?;
            put!(o, "{{\"name\":");
            json::text(o, &self.texts[e[3] as usize]);
            put!(o, ",\"value\":");
            at = raw::past_leb(bytes, at);
            self.value(o, &e, at)?;
            at = raw::past_value(bytes, at);
            o.push('}');
            Ok(())
        })
    }

    fn item(&mut self, o: &mut String, place: usize) -> Done {
        let f = self.file;
        self.kind("annotation items");
        let a = got("annotation", f.dralovika_annotation(place))?;
        put!(o, "{{\"visibility\":\"{}\",\"type\":", ["BUILD", "RUNTIME", "SYSTEM"][a[0] as usize]);
        self.type_text(o, a[1]);
        put!(o, ",\"elements\":");
        self.elements(o, a[2] as u32, place + 1, |k| f.dralovika_annotation_element(place, k))?;
        o.push('}');
        Ok(())
    }

    /// A set: how many items, and where each is.
    fn set(&mut self, o: &mut String, n: Answer, place: impl Fn(u32) -> Answer) -> Done {
        let n = count("annotation count", n)?;
        json::list(o, n, |o, k| {
            let p = got("annotation place", place(k))?;
            self.item(o, p[0] as usize)
        })
    }

    fn directory(&mut self, o: &mut String, c: u32) -> Done {
        let f = self.file;
        let Some(d) = maybe("directory", f.dralovika_directory(c))? else {
            o.push_str("null");
            return Ok(());
        };
        self.kind("directories");
        put!(o, "{{\"class\":");
        self.set(o, f.dralovika_class_annotation_count(c), |k| f.dralovika_class_annotation_place(c, k))?;
        put!(o, ",\"fields\":");
        json::list(o, d[1] as u32, |o, e| {
            let w = got("field entry", f.dralovika_field_entry(c, e))?;
            self.kind("field entries");
            put!(o, "{{\"field\":{},\"items\":", self.fields[w[0] as usize]);
            self.set(o, f.dralovika_field_annotation_count(c, e), |k| f.dralovika_field_annotation_place(c, e, k))?;
            o.push('}');
            Ok(())
        })?;
        put!(o, ",\"methods\":");
        json::list(o, d[2] as u32, |o, e| {
            let w = got("method entry", f.dralovika_method_entry(c, e))?;
            self.kind("method entries");
            put!(o, "{{\"method\":{},\"items\":", self.methods[w[0] as usize]);
            self.set(o, f.dralovika_method_annotation_count(c, e), |k| f.dralovika_method_annotation_place(c, e, k))?;
            o.push('}');
            Ok(())
        })?;
        put!(o, ",\"parameters\":[");
        let mut first = true;
        for e in 0..d[3] as u32 {
            self.parameters(o, c, e, &mut first)?;
        }
        o.push_str("]}");
        Ok(())
    }

    /// Line 10: the Rust hands out no entry for an absent set.
    fn parameters(&mut self, o: &mut String, c: u32, e: u32, first: &mut bool) -> Done {
        let f = self.file;
        let w = got("parameter entry", f.dralovika_parameter_entry(c, e))?;
        self.kind("parameter entries");
        for p in 0..count("parameter set count", f.dralovika_parameter_set_count(c, e))? {
            if raw::word(f.bytes, w[1] as usize + 4 + 4 * p as usize, self.big) == 0 {
                self.line(10);
                if count("parameter annotation count", f.dralovika_parameter_annotation_count(c, e, p))? != 0 {
                    return Err(Stop::Fault("an absent set is not empty".into()));
                }
                continue;
            }
            if !std::mem::take(first) {
                o.push(',');
            }
            put!(o, "{{\"method\":{},\"items\":", self.methods[w[0] as usize]);
            self.set(o, f.dralovika_parameter_annotation_count(c, e, p), |k| f.dralovika_parameter_annotation_place(c, e, p, k))?;
            o.push('}');
        }
        Ok(())
    }

    fn class_data(&mut self, o: &mut String, c: u32) -> Done {
        let Some(d) = maybe("class data", self.file.dralovika_class_data(c))? else {
            o.push_str("null");
            return Ok(());
        };
        self.kind("class data");
        put!(o, "{{\"static_fields\":");
        self.encoded_fields(o, c, 0, d[0] as u32)?;
        put!(o, ",\"instance_fields\":");
        self.encoded_fields(o, c, 1, d[1] as u32)?;
        put!(o, ",\"direct_methods\":");
        json::list(o, d[2] as u32, |o, k| self.encoded_method(o, c, 2, k))?;
        put!(o, ",\"virtual_methods\":");
        json::list(o, d[3] as u32, |o, k| self.encoded_method(o, c, 3, k))?;
        o.push('}');
        Ok(())
    }

    /// Line 1: the Rust adds the last difference alone, so that field k is the difference before it and its own.
    fn encoded_fields(&mut self, o: &mut String, c: u32, list: u32, n: u32) -> Done {
        let f = self.file;
        let (mut last, mut difference) = (0, 0);
        json::list(o, n, |o, k| {
            let m = got("member", f.dralovika_member(c, list, k))?;
            self.kind("class fields");
            let index = m[0] as u32;
            let there = difference + (index - last);
            (last, difference) = (index, index - last);
            if there != index {
                self.line(1);
            }
            put!(o, "{{\"field\":{},\"flags\":", self.fields[there as usize]);
            self.flags(o, FIELD, |bits| f.dralovika_member_flags(c, list, k, bits))?;
            o.push('}');
            Ok(())
        })
    }

    fn encoded_method(&mut self, o: &mut String, c: u32, list: u32, k: u32) -> Done {
        let f = self.file;
        let m = got("member", f.dralovika_member(c, list, k))?;
        self.kind("class methods");
        put!(o, "{{\"method\":{},\"flags\":", self.methods[m[0] as usize]);
        self.flags(o, METHOD, |bits| f.dralovika_member_flags(c, list, k, bits))?;
        put!(o, ",\"code\":");
        match maybe("code", f.dralovika_code(c, list, k))? {
            None => o.push_str("null"),
            Some(w) => self.code(o, c, list, k, &w)?,
        }
        o.push('}');
        Ok(())
    }

    fn code(&mut self, o: &mut String, c: u32, list: u32, k: u32, w: &Words) -> Done {
        let f = self.file;
        self.kind("code items");
        put!(o, "{{\"registers\":{},\"ins\":{},\"outs\":{},\"debug\":", w[0], w[1], w[2]);
        self.debug(o, c, list, k)?;
        put!(o, ",\"insns\":");
        let mut units = vec![0; w[5] as usize];
        let n = count("units", f.dralovika_units(c, list, k, &mut units))?;
        json::list(o, n, |o, i| {
            put!(o, "{}", units[i as usize]);
            Ok(())
        })?;
        put!(o, ",\"tries\":");
        json::list(o, w[3] as u32, |o, t| {
            let t = got("try", f.dralovika_try_item(c, list, k, t))?;
            self.kind("tries");
            put!(o, "{{\"code_units\":");
            self.try_units(o, &units, t[0] as usize, t[1] as usize)?;
            put!(o, ",\"handler\":");
            self.handler(o, c, list, k, t[3] as u32)?;
            o.push('}');
            Ok(())
        })?;
        put!(o, ",\"handlers\":");
        let n = count("handler count", f.dralovika_handler_count(c, list, k))?;
        json::list(o, n, |o, h| self.handler(o, c, list, k, h))?;
        o.push('}');
        Ok(())
    }

    /// Line 8: the Rust reads a try's units from the data section, at the byte whose number is the try's first unit. They are always there, since
    /// the units of the code item, two bytes each, lie in the data section.
    fn try_units(&mut self, o: &mut String, units: &[u16], start: usize, n: usize) -> Done {
        let data = &self.file.bytes[self.start..self.end];
        let there: Vec<u16> = (0..n).map(|i| raw::half(data, start + 2 * i, self.big)).collect();
        if there != units[start..start + n] {
            self.line(8);
        }
        json::list(o, n as u32, |o, i| {
            put!(o, "{}", there[i as usize]);
            Ok(())
        })
    }

    fn handler(&mut self, o: &mut String, c: u32, list: u32, k: u32, h: u32) -> Done {
        let f = self.file;
        let w = got("handler", f.dralovika_handler(c, list, k, h))?;
        self.kind("handlers");
        put!(o, "{{\"pairs\":");
        json::list(o, w[1] as u32, |o, p| {
            let pair = got("handler pair", f.dralovika_handler_pair(c, list, k, h, p))?;
            self.kind("handler pairs");
            o.push('[');
            self.type_text(o, pair[0]);
            put!(o, ",{}]", pair[1]);
            Ok(())
        })?;
        put!(o, ",\"catch_all\":");
        match w[2] {
            NOTHING => o.push_str("null"),
            a => {
                put!(o, "{a}");
            }
        }
        o.push('}');
        Ok(())
    }

    fn debug(&mut self, o: &mut String, c: u32, list: u32, k: u32) -> Done {
        let f = self.file;
        let Some(d) = maybe("debug", f.dralovika_debug(c, list, k))? else {
            o.push_str("null");
            return Ok(());
        };
        self.kind("debug information");
        put!(o, "{{\"line_start\":{},\"parameter_names\":[", d[0]);
        for p in 0..d[1] as u32 {
            let name = got("debug parameter", f.dralovika_debug_parameter(c, list, k, p))?;
            self.kind("debug names");
            if p > 0 {
                o.push_str(", ");
            }
            match name[0] {
                // line 6: none is -1 in the Rust
                NOTHING => {
                    self.line(6);
                    o.push_str("-1");
                }
                s => {
                    put!(o, "{s}");
                }
            }
        }
        put!(o, "],\"bytecode\":");
        let program = &f.bytes[d[2] as usize..(d[2] + d[3]) as usize];
        json::list(o, program.len() as u32, |o, i| {
            put!(o, "\"{}\"", opcode(program[i as usize]));
            Ok(())
        })?;
        o.push('}');
        Ok(())
    }
}

/// The Rust's answer where its input ends early.
fn ended(needed: usize) -> String {
    format!("{{\"error\":\"file unexpectedly ended early: expected {needed} bytes\"}}")
}

/// The Rust's answer where an index is beyond a table.
fn beyond(length: usize, index: usize, at: &str) -> String {
    format!("{{\"panic\":\"index out of bounds: the len is {length} but the index is {index} @{at}\"}}")
}

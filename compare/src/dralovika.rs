//! Safe wrappers over include/dralovika.h: a file is a slice, an answer is words, none, or a refusal.
#![allow(dead_code)]

const WORDS: usize = 20;
/// None inside an answer.
pub const NOTHING: u64 = u64::MAX;

pub type Row = [u64; WORDS];

#[derive(Clone, Copy, Debug, PartialEq)]
pub struct Refusal {
    pub number: u64,
    pub place: u64,
}

/// The words of an answer, from word 1 on; none; or a refusal.
pub enum Answer {
    Words([u64; WORDS - 1]),
    Nothing,
    Refused(Refusal),
}

macro_rules! declare {
    ($($name:ident($($arg:ident: $type:ty),*);)*) => {
        mod raw {
            extern "C" {
                $(pub fn $name(file: *const u8, length: usize, $($arg: $type,)* out: *mut u64);)*
            }
        }
        impl<'a> File<'a> {
            $(pub fn $name(&self, $($arg: $type),*) -> Answer {
                let mut out = [0; WORDS];
                // The library reads `length` bytes from `file` and writes twenty words to `out`: both are lent for the call.
                unsafe { raw::$name(self.bytes.as_ptr(), self.bytes.len(), $($arg,)* out.as_mut_ptr()) };
                said(&out)
            })*
        }
    };
}

/// A file of any bytes.
#[derive(Clone, Copy)]
pub struct File<'a> {
    pub bytes: &'a [u8],
}

fn said(out: &Row) -> Answer {
    match out[0] {
        0 => Answer::Words(out[1..].try_into().unwrap()),
        1 => Answer::Nothing,
        _ => Answer::Refused(Refusal { number: out[1], place: out[2] }),
    }
}

declare! {
    dralovika_check();
    dralovika_header();
    dralovika_signature();
    dralovika_map_count();
    dralovika_map_entry(k: u32);
    dralovika_handle_count();
    dralovika_handle(n: u32);
    dralovika_string(n: u32);
    dralovika_type_name(n: u32);
    dralovika_proto(n: u32);
    dralovika_parameter_count(n: u32);
    dralovika_parameter(n: u32, k: u32);
    dralovika_field(n: u32);
    dralovika_method(n: u32);
    dralovika_class(n: u32);
    dralovika_interface_count(n: u32);
    dralovika_interface(n: u32, k: u32);
    dralovika_directory(c: u32);
    dralovika_field_entry(c: u32, k: u32);
    dralovika_method_entry(c: u32, k: u32);
    dralovika_parameter_entry(c: u32, k: u32);
    dralovika_class_annotation_count(c: u32);
    dralovika_class_annotation_place(c: u32, k: u32);
    dralovika_field_annotation_count(c: u32, e: u32);
    dralovika_field_annotation_place(c: u32, e: u32, k: u32);
    dralovika_method_annotation_count(c: u32, e: u32);
    dralovika_method_annotation_place(c: u32, e: u32, k: u32);
    dralovika_parameter_set_count(c: u32, e: u32);
    dralovika_parameter_annotation_count(c: u32, e: u32, p: u32);
    dralovika_parameter_annotation_place(c: u32, e: u32, p: u32, k: u32);
    dralovika_annotation(place: usize);
    dralovika_annotation_element(place: usize, k: u32);
    dralovika_array(place: usize);
    dralovika_array_value(place: usize, k: u32);
    dralovika_annotation_body(place: usize);
    dralovika_annotation_body_element(place: usize, k: u32);
    dralovika_static_value_count(c: u32);
    dralovika_static_value(c: u32, k: u32);
    dralovika_class_data(c: u32);
    dralovika_member(c: u32, list: u32, k: u32);
    dralovika_code(c: u32, list: u32, k: u32);
    dralovika_try_item(c: u32, list: u32, k: u32, t: u32);
    dralovika_covering_try(c: u32, list: u32, k: u32, address: u32);
    dralovika_handler_count(c: u32, list: u32, k: u32);
    dralovika_handler(c: u32, list: u32, k: u32, h: u32);
    dralovika_handler_pair(c: u32, list: u32, k: u32, h: u32, p: u32);
    dralovika_debug(c: u32, list: u32, k: u32);
    dralovika_debug_parameter(c: u32, list: u32, k: u32, p: u32);
}

mod lent {
    extern "C" {
        pub fn dralovika_find_string(file: *const u8, length: usize, text: *const u8, text_length: usize, out: *mut u64);
        pub fn dralovika_class_flags(file: *const u8, length: usize, n: u32, flags: *mut u8, room: usize, out: *mut u64);
        pub fn dralovika_member_flags(file: *const u8, length: usize, c: u32, list: u32, k: u32, flags: *mut u8, room: usize, out: *mut u64);
        pub fn dralovika_units(file: *const u8, length: usize, c: u32, list: u32, k: u32, units: *mut u16, room: usize, out: *mut u64);
    }
}

impl<'a> File<'a> {
    pub fn dralovika_find_string(&self, text: &[u8]) -> Answer {
        let mut out = [0; WORDS];
        unsafe { lent::dralovika_find_string(self.bytes.as_ptr(), self.bytes.len(), text.as_ptr(), text.len(), out.as_mut_ptr()) };
        said(&out)
    }
    pub fn dralovika_class_flags(&self, n: u32, flags: &mut [u8]) -> Answer {
        let mut out = [0; WORDS];
        unsafe { lent::dralovika_class_flags(self.bytes.as_ptr(), self.bytes.len(), n, flags.as_mut_ptr(), flags.len(), out.as_mut_ptr()) };
        said(&out)
    }
    pub fn dralovika_member_flags(&self, c: u32, list: u32, k: u32, flags: &mut [u8]) -> Answer {
        let mut out = [0; WORDS];
        unsafe { lent::dralovika_member_flags(self.bytes.as_ptr(), self.bytes.len(), c, list, k, flags.as_mut_ptr(), flags.len(), out.as_mut_ptr()) };
        said(&out)
    }
    pub fn dralovika_units(&self, c: u32, list: u32, k: u32, units: &mut [u16]) -> Answer {
        let mut out = [0; WORDS];
        unsafe { lent::dralovika_units(self.bytes.as_ptr(), self.bytes.len(), c, list, k, units.as_mut_ptr(), units.len(), out.as_mut_ptr()) };
        said(&out)
    }
}

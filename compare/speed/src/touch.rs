//! Every reader asked for every number and place that an accepted file gives. What is read is summed, so that no call can be left out.
use crate::dralovika::{Answer, File};

struct Sum<'a> {
    file: File<'a>,
    sum: u64,
    calls: u64,
    units: Vec<u16>,
}

pub fn all(bytes: &[u8]) -> (u64, u64) {
    let mut s = Sum { file: File { bytes }, sum: 0, calls: 0, units: vec![] };
    s.file();
    (s.sum, s.calls)
}

impl<'a> Sum<'a> {
    /// The words of an answer, none where there is nothing.
    fn some(&mut self, answer: Answer) -> Option<[u64; 19]> {
        self.calls += 1;
        match answer {
            Answer::Words(w) => {
                self.sum = self.sum.wrapping_add(w.iter().fold(0, |a, b| a ^ b));
                Some(w)
            }
            Answer::Nothing => None,
            Answer::Refused(r) => panic!("refused with {} at {}", r.number, r.place),
        }
    }

    fn words(&mut self, answer: Answer) -> [u64; 19] {
        self.some(answer).expect("an answer")
    }

    fn count(&mut self, answer: Answer) -> u32 {
        self.words(answer)[0] as u32
    }

    fn file(&mut self) {
        let f = self.file;
        let h = self.words(f.dralovika_header());
        self.words(f.dralovika_signature());
        for k in 0..self.count(f.dralovika_map_count()) {
            self.words(f.dralovika_map_entry(k));
        }
        for n in 0..self.count(f.dralovika_handle_count()) {
            self.words(f.dralovika_handle(n));
        }
        for n in 0..h[4] as u32 {
            self.words(f.dralovika_string(n));
        }
        for n in 0..h[6] as u32 {
            self.words(f.dralovika_type_name(n));
        }
        for n in 0..h[8] as u32 {
            self.words(f.dralovika_proto(n));
            for k in 0..self.count(f.dralovika_parameter_count(n)) {
                self.words(f.dralovika_parameter(n, k));
            }
        }
        for n in 0..h[10] as u32 {
            self.words(f.dralovika_field(n));
        }
        for n in 0..h[12] as u32 {
            self.words(f.dralovika_method(n));
        }
        for c in 0..h[14] as u32 {
            self.class(c);
        }
    }

    fn class(&mut self, c: u32) {
        let f = self.file;
        let mut bits = [0; 18];
        self.words(f.dralovika_class(c));
        self.words(f.dralovika_class_flags(c, &mut bits));
        for k in 0..self.count(f.dralovika_interface_count(c)) {
            self.words(f.dralovika_interface(c, k));
        }
        self.directory(c);
        if let Some(d) = self.some(f.dralovika_class_data(c)) {
            for list in 0..4 {
                for k in 0..d[list as usize] as u32 {
                    self.words(f.dralovika_member(c, list, k));
                    self.words(f.dralovika_member_flags(c, list, k, &mut bits));
                    if list > 1 {
                        self.code(c, list, k);
                    }
                }
            }
        }
        for k in 0..self.count(f.dralovika_static_value_count(c)) {
            let v = self.words(f.dralovika_static_value(c, k));
            self.value(&v);
        }
    }

    fn code(&mut self, c: u32, list: u32, k: u32) {
        let f = self.file;
        let Some(w) = self.some(f.dralovika_code(c, list, k)) else { return };
        let mut units = std::mem::take(&mut self.units);
        units.resize(units.len().max(w[5] as usize), 0);
        self.words(f.dralovika_units(c, list, k, &mut units));
        self.units = units;
        for t in 0..w[3] as u32 {
            self.words(f.dralovika_try_item(c, list, k, t));
        }
        for h in 0..self.count(f.dralovika_handler_count(c, list, k)) {
            let w = self.words(f.dralovika_handler(c, list, k, h));
            for p in 0..w[1] as u32 {
                self.words(f.dralovika_handler_pair(c, list, k, h, p));
            }
        }
        if let Some(d) = self.some(f.dralovika_debug(c, list, k)) {
            for p in 0..d[1] as u32 {
                self.words(f.dralovika_debug_parameter(c, list, k, p));
            }
        }
    }

    fn directory(&mut self, c: u32) {
        let f = self.file;
        let Some(d) = self.some(f.dralovika_directory(c)) else { return };
        for k in 0..self.count(f.dralovika_class_annotation_count(c)) {
            let p = self.count(f.dralovika_class_annotation_place(c, k));
            self.item(p as usize);
        }
        for e in 0..d[1] as u32 {
            self.words(f.dralovika_field_entry(c, e));
            for k in 0..self.count(f.dralovika_field_annotation_count(c, e)) {
                let p = self.count(f.dralovika_field_annotation_place(c, e, k));
                self.item(p as usize);
            }
        }
        for e in 0..d[2] as u32 {
            self.words(f.dralovika_method_entry(c, e));
            for k in 0..self.count(f.dralovika_method_annotation_count(c, e)) {
                let p = self.count(f.dralovika_method_annotation_place(c, e, k));
                self.item(p as usize);
            }
        }
        for e in 0..d[3] as u32 {
            self.words(f.dralovika_parameter_entry(c, e));
            for p in 0..self.count(f.dralovika_parameter_set_count(c, e)) {
                for k in 0..self.count(f.dralovika_parameter_annotation_count(c, e, p)) {
                    let p = self.count(f.dralovika_parameter_annotation_place(c, e, p, k));
                    self.item(p as usize);
                }
            }
        }
    }

    fn item(&mut self, place: usize) {
        let f = self.file;
        let a = self.words(f.dralovika_annotation(place));
        for k in 0..a[2] as u32 {
            let v = self.words(f.dralovika_annotation_element(place, k));
            self.value(&v);
        }
    }

    fn value(&mut self, v: &[u64; 19]) {
        let f = self.file;
        let place = v[1] as usize;
        if v[0] == 0x1c {
            for k in 0..self.count(f.dralovika_array(place)) {
                let w = self.words(f.dralovika_array_value(place, k));
                self.value(&w);
            }
        }
        if v[0] == 0x1d {
            let b = self.words(f.dralovika_annotation_body(place));
            for k in 0..b[1] as u32 {
                let w = self.words(f.dralovika_annotation_body_element(place, k));
                self.value(&w);
            }
        }
    }
}

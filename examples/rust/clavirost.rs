//! Clavirost for Rust: the declarations of libclavirost.a and a safe wrapper. Copy this file into your crate, and let your build link the
//! library (`rt lib` in crates/clavirost writes out/libclavirost.a there, for x86-64 Linux):
//!
//!     println!("cargo:rustc-link-search=native=PATH/crates/clavirost/out");
//!     println!("cargo:rustc-link-lib=static=clavirost");
//!
//! What each call means, how long its lists are and what it refuses is said in include/clavirost.h. Every call is proved to answer as said there
//! for all numbers and lists, so the wrapper only has to hand over slices with their own lengths, and to ask for as many places as the call needs.

/// The declarations, as in include/clavirost.h.
pub mod raw {
    extern "C" {
        pub fn clavirost_check(
            p: u32, n: u32, d: usize, e: usize, labels: *const u32, labels_length: usize, entries: *const u32, entries_length: usize,
        ) -> u32;
        pub fn clavirost_deal(
            p: u32, n: u32, d: usize, e: usize, labels: *const u32, labels_length: usize, entries: *const u32, entries_length: usize,
            secret: u32, randoms: *const u32, randoms_length: usize, shares: *mut u32, shares_length: usize,
        ) -> u32;
        pub fn clavirost_ask(
            p: u32, n: u32, d: usize, e: usize, labels: *const u32, labels_length: usize, entries: *const u32, entries_length: usize,
            set: u32, r: *mut u32, r_length: usize, z: *mut u32, z_length: usize,
        ) -> u32;
        pub fn clavirost_join(
            p: u32, n: u32, d: usize, e: usize, labels: *const u32, labels_length: usize, entries: *const u32, entries_length: usize,
            set: u32, shares: *const u32, shares_length: usize, code: *mut u32,
        ) -> u32;
        pub fn clavirost_product(
            p: u32, n: u32, d: usize, e: usize, labels: *const u32, labels_length: usize, entries: *const u32, entries_length: usize,
            r: *mut u32, r_length: usize, w: *mut u32, w_length: usize,
        ) -> u32;
        pub fn clavirost_threshold(
            p: u32, n: u32, d: usize, e: usize, labels: *const u32, labels_length: usize, entries: *const u32, entries_length: usize,
            t: u32, set: *mut u32,
        ) -> u32;
        pub fn clavirost_rule(
            p: u32, n: u32, text: *const u8, text_length: usize, labels: *mut u32, labels_length: usize, entries: *mut u32,
            entries_length: usize, d: *mut usize, e: *mut usize,
        ) -> u32;
        pub fn clavirost_write(
            p: u32, n: u32, d: usize, e: usize, labels: *const u32, labels_length: usize, entries: *const u32, entries_length: usize,
            file: *mut u8, file_length: usize,
        ) -> u32;
        pub fn clavirost_read(
            file: *const u8, file_length: usize, labels: *mut u32, labels_length: usize, entries: *mut u32, entries_length: usize,
            p: *mut u32, n: *mut u32, d: *mut usize, e: *mut usize,
        ) -> u32;
        pub fn clavirost_panel_new(
            p: u32, n: u32, d: usize, e: usize, labels: *const u32, labels_length: usize, entries: *const u32, entries_length: usize,
            panel_labels: *mut u32, panel_labels_length: usize, panel_entries: *mut u32, panel_entries_length: usize, cards: *mut u32,
            stored: *mut u32, stored_length: usize,
        ) -> u32;
        pub fn clavirost_panel_put(
            p: u32, n: u32, d: usize, e: usize, panel_labels: *const u32, panel_labels_length: usize, panel_entries: *const u32,
            panel_entries_length: usize, cards: *mut u32, stored: *mut u32, stored_length: usize, who: u32, shares: *const u32,
            shares_length: usize,
        ) -> u32;
        pub fn clavirost_panel_take(
            p: u32, n: u32, d: usize, e: usize, panel_labels: *const u32, panel_labels_length: usize, panel_entries: *const u32,
            panel_entries_length: usize, cards: *mut u32, stored: *mut u32, stored_length: usize, who: u32,
        ) -> u32;
        pub fn clavirost_panel_code(
            p: u32, n: u32, d: usize, e: usize, panel_labels: *const u32, panel_labels_length: usize, panel_entries: *const u32,
            panel_entries_length: usize, cards: u32, stored: *const u32, stored_length: usize, code: *mut u32,
        ) -> u32;
        pub fn clavirost_sheet_line(
            p: u32, n: u32, d: usize, e: usize, labels: *const u32, labels_length: usize, entries: *const u32, entries_length: usize,
            set: u32, out: *mut u8, out_length: usize, size: *mut usize,
        ) -> u32;
        pub fn clavirost_sheet_part(
            file: *const u8, file_length: usize, k: u32, out: *mut u8, out_length: usize, size: *mut usize,
        ) -> u32;
    }
}

const YES: u32 = 100;
const NO: u32 = 101;

/// A refusal, with document 01's number.
#[derive(Debug, Clone, Copy, PartialEq, Eq)]
pub struct Refused(pub u32);

fn done(said: u32) -> Result<(), Refused> {
    if said == 0 { Ok(()) } else { Err(Refused(said)) }
}

/// Yes with one list, no with the other.
#[derive(Debug, Clone, PartialEq, Eq)]
pub enum Verdict {
    Yes(Vec<u32>),
    No(Vec<u32>),
}

fn verdict(said: u32, yes: Vec<u32>, no: Vec<u32>) -> Result<Verdict, Refused> {
    match said {
        YES => Ok(Verdict::Yes(yes)),
        NO => Ok(Verdict::No(no)),
        k => Err(Refused(k)),
    }
}

/// A scheme: modulus, participants, rows, columns, the label of each row, the entries row by row.
#[derive(Debug, Clone, PartialEq, Eq)]
pub struct Scheme {
    pub p: u32,
    pub n: u32,
    pub d: usize,
    pub e: usize,
    pub labels: Vec<u32>,
    pub entries: Vec<u32>,
}

/// The numbers and lists of a scheme, as every call on one takes them.
macro_rules! on {
    ($call:ident, $s:expr $(, $more:expr)*) => {
        unsafe { raw::$call($s.p, $s.n, $s.d, $s.e, $s.labels.as_ptr(), $s.labels.len(), $s.entries.as_ptr(), $s.entries.len() $(, $more)*) }
    };
}

impl Scheme {
    pub fn check(&self) -> Result<(), Refused> {
        done(on!(clavirost_check, self))
    }

    /// The scheme of a written rule such as `(1|2)&3`.
    pub fn from_rule(p: u32, n: u32, rule: &[u8]) -> Result<Scheme, Refused> {
        let (mut labels, mut entries, mut d, mut e) = (vec![0; 32], vec![0; 384], 0, 0);
        done(unsafe {
            raw::clavirost_rule(p, n, rule.as_ptr(), rule.len(), labels.as_mut_ptr(), 32, entries.as_mut_ptr(), 384, &mut d, &mut e)
        })?;
        labels.truncate(d);
        entries.truncate(d * e);
        Ok(Scheme { p, n, d, e, labels, entries })
    }

    /// The scheme that a file says.
    pub fn from_file(file: &[u8]) -> Result<Scheme, Refused> {
        let (mut labels, mut entries, mut p, mut n, mut d, mut e) = (vec![0; 32], vec![0; 384], 0, 0, 0, 0);
        done(unsafe {
            raw::clavirost_read(
                file.as_ptr(), file.len(), labels.as_mut_ptr(), 32, entries.as_mut_ptr(), 384, &mut p, &mut n, &mut d, &mut e,
            )
        })?;
        labels.truncate(d);
        entries.truncate(d * e);
        Ok(Scheme { p, n, d, e, labels, entries })
    }

    pub fn to_file(&self) -> Result<Vec<u8>, Refused> {
        let mut file = vec![0; if self.d <= 20 { 1024 } else { 1536 }];
        done(on!(clavirost_write, self, file.as_mut_ptr(), file.len()))?;
        Ok(file)
    }

    /// The shares of a secret. The random numbers must be random, each of 0 to p - 1 equally likely, and must be destroyed.
    pub fn deal(&self, secret: u32, randoms: &[u32]) -> Result<Vec<u32>, Refused> {
        self.check()?;
        let mut shares = vec![0; self.d];
        done(on!(clavirost_deal, self, secret, randoms.as_ptr(), randoms.len(), shares.as_mut_ptr(), shares.len()))?;
        Ok(shares)
    }

    /// Is the set open? Yes with r, no with z.
    pub fn ask(&self, set: u32) -> Result<Verdict, Refused> {
        self.check()?;
        let (mut r, mut z) = (vec![0; self.d], vec![0; self.e]);
        let said = on!(clavirost_ask, self, set, r.as_mut_ptr(), r.len(), z.as_mut_ptr(), z.len());
        verdict(said, r, z)
    }

    /// The code of a set's shares; one share for each row, those outside the set are not read.
    pub fn join(&self, set: u32, shares: &[u32]) -> Result<u32, Refused> {
        let mut code = 0;
        done(on!(clavirost_join, self, set, shares.as_ptr(), shares.len(), &mut code))?;
        Ok(code)
    }

    /// The product verdict: yes with r, no with w.
    pub fn product(&self) -> Result<Verdict, Refused> {
        self.check()?;
        let (mut r, mut w) = (vec![0; self.d], vec![0; self.e * (self.e + 1) / 2]);
        let said = on!(clavirost_product, self, r.as_mut_ptr(), r.len(), w.as_mut_ptr(), w.len());
        verdict(said, r, w)
    }

    /// Is each set open exactly if it has at least t + 1 participants? None, or the first set that breaks it.
    pub fn threshold(&self, t: u32) -> Result<Option<u32>, Refused> {
        let mut set = 0;
        match on!(clavirost_threshold, self, t, &mut set) {
            YES => Ok(None),
            NO => Ok(Some(set)),
            k => Err(Refused(k)),
        }
    }

    /// The sheet's line of a set, with the byte 10 that ends it.
    pub fn sheet_line(&self, set: u32) -> Result<Vec<u8>, Refused> {
        let (mut out, mut size) = (vec![0; 256], 0);
        done(on!(clavirost_sheet_line, self, set, out.as_mut_ptr(), out.len(), &mut size))?;
        out.truncate(size);
        Ok(out)
    }
}

/// The whole sheet of a file: for a refused file the line REFUSED.
pub fn sheet(file: &[u8]) -> Vec<u8> {
    let (mut sheet, mut out) = (Vec::new(), vec![0; 65536]);
    for k in 0.. {
        let mut size = 0;
        let said = unsafe { raw::clavirost_sheet_part(file.as_ptr(), file.len(), k, out.as_mut_ptr(), out.len(), &mut size) };
        if said != 0 || size == 0 {
            break;
        }
        sheet.extend_from_slice(&out[..size]);
    }
    sheet
}

/// The card panel, with the scheme in places of its own.
#[derive(Debug, Clone, PartialEq, Eq)]
pub struct Panel {
    p: u32,
    n: u32,
    d: usize,
    e: usize,
    labels: [u32; 32],
    entries: [u32; 384],
    cards: u32,
    stored: [u32; 32],
}

impl Panel {
    pub fn new(s: &Scheme) -> Result<Panel, Refused> {
        let mut a = Panel { p: s.p, n: s.n, d: s.d, e: s.e, labels: [0; 32], entries: [0; 384], cards: 0, stored: [0; 32] };
        done(on!(
            clavirost_panel_new, s, a.labels.as_mut_ptr(), 32, a.entries.as_mut_ptr(), 384, &mut a.cards, a.stored.as_mut_ptr(), 32
        ))?;
        Ok(a)
    }

    /// The set of the cards that are in.
    pub fn cards(&self) -> u32 {
        self.cards
    }

    pub fn put(&mut self, who: u32, shares: &[u32]) -> Result<(), Refused> {
        let a = &mut *self;
        done(unsafe {
            raw::clavirost_panel_put(
                a.p, a.n, a.d, a.e, a.labels.as_ptr(), 32, a.entries.as_ptr(), 384, &mut a.cards, a.stored.as_mut_ptr(), 32, who,
                shares.as_ptr(), shares.len(),
            )
        })
    }

    pub fn take(&mut self, who: u32) -> Result<(), Refused> {
        let a = &mut *self;
        done(unsafe {
            raw::clavirost_panel_take(
                a.p, a.n, a.d, a.e, a.labels.as_ptr(), 32, a.entries.as_ptr(), 384, &mut a.cards, a.stored.as_mut_ptr(), 32, who,
            )
        })
    }

    /// The code of the cards now in it.
    pub fn code(&self) -> Result<u32, Refused> {
        let mut code = 0;
        done(unsafe {
            raw::clavirost_panel_code(
                self.p, self.n, self.d, self.e, self.labels.as_ptr(), 32, self.entries.as_ptr(), 384, self.cards, self.stored.as_ptr(), 32,
                &mut code,
            )
        })?;
        Ok(code)
    }
}

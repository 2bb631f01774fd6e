//! The library's structs by their bytes: whether two are the same in every byte of every field, so that no field can be
//! left out of a comparison. Bytes between fields belong to none.

use std::fmt::Debug;
use std::mem::{size_of, MaybeUninit};
use std::sync::OnceLock;

/// Which bytes of a struct belong to its fields.
pub struct Mask {
    /// Every field.
    all: Vec<bool>,
    /// Every field but those that stand in place of padding.
    numbers: Vec<bool>,
}

/// A plain struct: every field takes zeros, and a field that differs is shown otherwise.
pub trait Form: Copy + Debug + 'static {
    fn mask() -> &'static Mask;
}

macro_rules! forms {
    ($($form:ty),* $(,)?) => {
        $(impl Form for $form {
            fn mask() -> &'static Mask {
                static MASK: OnceLock<Mask> = OnceLock::new();
                MASK.get_or_init(mask::<$form>)
            }
        })*
    };
}

forms!(
    crate::hullathan::sender::SenderTiming,
    crate::hullathan::tracker::SpeedTracker,
    crate::hullathan::bank::Hypothesis,
    crate::hullathan::bank::Record,
    crate::hullathan::bank::Bank,
    crate::hullathan::bank::Departure,
    crate::hullathan::station::Station,
    crate::hullathan::station::Answer,
    crate::hullathan::station::Event,
    crate::hullathan::station::Rival,
    crate::hullathan::station::Reading,
);

fn bytes<T>(form: &T) -> &[MaybeUninit<u8>] {
    // Safety: the bytes are the form's own, and none is said to have a value
    unsafe { std::slice::from_raw_parts((form as *const T).cast(), size_of::<T>()) }
}

/// The form with the lowest bit of a byte turned: of a flag the other, of a float another float that is no NaN where it
/// was small.
pub fn turned<T: Form>(form: &T, at: usize) -> T {
    let mut other = *form;
    assert!(at < size_of::<T>());
    // Safety: the byte is within the form, and no field has a bit pattern that it does not take
    unsafe {
        let byte = (&raw mut other).cast::<u8>().add(at);
        *byte ^= 1;
    }
    other
}

/// What is shown of a form, without the fields that stand in place of padding.
fn shown(text: &str) -> String {
    let mut rest = text;
    let mut kept = String::new();
    while let Some(at) = rest.find("pad_") {
        kept.push_str(&rest[..at]);
        let end = rest[at..].find(']').map_or(rest.len(), |n| at + n + 1);
        rest = &rest[end..];
    }
    kept + rest
}

/// A byte belongs to a field where turning it changes what is shown.
fn mask<T: Form>() -> Mask {
    // Safety: a plain struct of numbers and flags takes zeros
    let zeros: T = unsafe { std::mem::zeroed() };
    let text = format!("{zeros:?}");
    let mut m = Mask {
        all: Vec::new(),
        numbers: Vec::new(),
    };
    let numbers = shown(&text);
    for at in 0..size_of::<T>() {
        let other = format!("{:?}", turned(&zeros, at));
        m.all.push(other != text);
        m.numbers.push(shown(&other) != numbers);
    }
    m
}

fn agree<T: Form>(a: &T, b: &T, mask: &[bool]) -> bool {
    let both = bytes(a).iter().zip(bytes(b));
    // Safety: a byte of a field has a value
    let same = |(x, y): (&MaybeUninit<u8>, &MaybeUninit<u8>)| unsafe {
        x.assume_init() == y.assume_init()
    };
    both.zip(mask).all(|(pair, &is)| !is || same(pair))
}

/// Whether two are the same in every byte of every field.
pub fn identical<T: Form>(a: &T, b: &T) -> bool {
    agree(a, b, &T::mask().all)
}

/// The same, but for what stands in place of padding: a struct that is handed over by value has nothing there.
pub fn identical_numbers<T: Form>(a: &T, b: &T) -> bool {
    agree(a, b, &T::mask().numbers)
}

/// Each byte of a field, by its place.
pub fn places<T: Form>() -> Vec<usize> {
    let all = T::mask().all.iter().enumerate();
    all.filter(|(_, &is)| is).map(|(at, _)| at).collect()
}

/// Each byte of a field but of those in place of padding.
pub fn places_of_numbers<T: Form>() -> Vec<usize> {
    let all = T::mask().numbers.iter().enumerate();
    all.filter(|(_, &is)| is).map(|(at, _)| at).collect()
}

#[cfg(test)]
mod tests {
    use super::*;
    use crate::hullathan::bank::Record;
    use crate::hullathan::sender::SenderTiming;

    #[repr(C)]
    #[derive(Debug, Clone, Copy)]
    struct Padded {
        flag: bool,
        pad_flag: [u8; 1],
        number: f32,
    }

    forms!(Padded);

    /// A flag, one byte in place of padding, two between fields, and a float.
    #[test]
    fn bytes_of_fields() {
        let m = Padded::mask();
        let (yes, no) = (true, false);
        assert_eq!(m.all, [yes, yes, no, no, yes, yes, yes, yes]);
        assert_eq!(m.numbers, [yes, no, no, no, yes, yes, yes, yes]);
        assert_eq!(places::<SenderTiming>().len(), 60);
        assert!(places_of_numbers::<Record>().len() == 17);
    }

    /// Each byte of a field counts, and no other; a NaN by its bits.
    #[test]
    fn each_byte_counts() {
        let r = Record {
            mark_index: 7,
            from_dit_ms: f32::NAN,
            to_dit_ms: 60.0,
            ..Record::default()
        };
        assert!(identical(&r, &r.clone()) && identical_numbers(&r, &r.clone()));
        for at in 0..size_of::<Record>() {
            let is = Record::mask().all[at];
            assert_eq!(identical(&r, &turned(&r, at)), !is, "byte {at}");
        }
    }
}

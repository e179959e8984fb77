//! What is compared with gix-date.

#[cfg(feature = "ours")]
use chowderbell::entries;

use crate::oracle::{Form, Now, Writer};

/// The readers, `size` and the writers, with all that they write.
pub trait Side {
    /// Reads `text`. Returns the number, and leaves in `seconds`, in `offset` and, if the form has a mark, in `mark` what the
    /// reader wrote there.
    fn read(&self, form: Form, text: &[u8], now: &Now, seconds: &mut i64, offset: &mut i32, mark: &mut u8) -> u8;
    /// Returns the length of a header.
    fn size(&self, seconds: i64, offset: i32) -> usize;
    /// Writes a time. Returns the number, and leaves in `room` and `length` what the writer wrote there.
    fn write(&self, writer: Writer, seconds: i64, offset: i32, room: &mut [u8], length: &mut usize) -> u8;
}

/// The proved library.
#[cfg(feature = "ours")]
pub struct Ours;

#[cfg(feature = "ours")]
impl Ours {
    /// Calls the entry of `form`, which has no mark. The current time is `has_now`, seconds and offset, as the entries take
    /// it.
    ///
    /// This is what `bench` measures, so it does nothing else.
    #[inline]
    pub fn call(form: Form, text: &[u8], now: (u8, i64, i32), seconds: &mut i64, offset: &mut i32) -> u8 {
        let (has_now, now_seconds, now_offset) = now;
        match form {
            Form::Header => entries::header(text, seconds, offset),
            Form::Raw => entries::raw(text, seconds, offset),
            #[cfg(feature = "rules")]
            Form::RawBy(rule) => entries::raw_by(rule, text, seconds, offset),
            Form::Iso => entries::iso(text, seconds, offset),
            Form::Relative => entries::relative(text, has_now, now_seconds, now_offset, seconds, offset),
            #[cfg(feature = "turns")]
            Form::Turns => entries::relative_turns(text, has_now, now_seconds, now_offset, seconds, offset),
            Form::Any => entries::any(text, has_now, now_seconds, now_offset, seconds, offset),
            #[cfg(feature = "rules")]
            Form::AnyBy(rule) => entries::any_by(rule, text, has_now, now_seconds, now_offset, seconds, offset),
            #[cfg(not(feature = "rules"))]
            Form::RawBy(_) | Form::AnyBy(_) => panic!("built without the calls that take a rule"),
            #[cfg(not(feature = "turns"))]
            Form::Turns => panic!("built without the second reader of relative dates"),
            Form::HeaderMarked | Form::RawMarked(_) | Form::AnyMarked(_) => panic!("the form has a mark"),
        }
    }

    /// The same for a form that has a mark.
    #[cfg(feature = "marks")]
    #[inline]
    pub fn call_marked(
        form: Form,
        text: &[u8],
        now: (u8, i64, i32),
        seconds: &mut i64,
        offset: &mut i32,
        mark: &mut u8,
    ) -> u8 {
        let (has_now, now_seconds, now_offset) = now;
        match form {
            Form::HeaderMarked => entries::header_marked(text, seconds, offset, mark),
            Form::RawMarked(rule) => entries::raw_marked(rule, text, seconds, offset, mark),
            Form::AnyMarked(rule) => {
                entries::any_marked(rule, text, has_now, now_seconds, now_offset, seconds, offset, mark)
            }
            _ => panic!("the form has no mark"),
        }
    }
}

#[cfg(all(feature = "rules", feature = "turns", feature = "marks"))]
impl Side for Ours {
    fn read(&self, form: Form, text: &[u8], now: &Now, seconds: &mut i64, offset: &mut i32, mark: &mut u8) -> u8 {
        // Any value but 0 means that there is a current time. Without one, its numbers must not matter.
        let now = match now.time {
            Some((seconds, offset)) => ([1, 2, 255][text.len() % 3], seconds, offset),
            None => (0, i64::MIN, 77),
        };
        if form.has_mark() {
            Ours::call_marked(form, text, now, seconds, offset, mark)
        } else {
            Ours::call(form, text, now, seconds, offset)
        }
    }

    fn size(&self, seconds: i64, offset: i32) -> usize {
        entries::size(seconds, offset)
    }

    fn write(&self, writer: Writer, seconds: i64, offset: i32, room: &mut [u8], length: &mut usize) -> u8 {
        match writer {
            Writer::Header => entries::write_header(seconds, offset, room, length),
            Writer::HeaderMarked(mark) => entries::write_header_marked(seconds, offset, mark, room, length),
            Writer::Iso => entries::write_iso(seconds, offset, room, length),
        }
    }
}

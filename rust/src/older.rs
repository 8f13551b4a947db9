//! How frames of the two older dialects are written: a message may have several strings.

use crate::boundary::Outcome;
use crate::tables::SHORT;

/// `encode` of a dialect's frames, by two calls of the library, for messages of so many strings at the most.
macro_rules! encodes {
    ($write_t:path, $write_r:path, $strings:literal) => {
        impl Tframe<'_> {
            /// Writes the request at the front of the output, and answers its length. Refused, the
            /// output is as it was; 18 where a stat's strings are longer than its count can say.
            #[inline]
            pub fn encode(&self, out: &mut [u8]) -> Result<usize, $crate::Refusal> {
                use $crate::ffi::Told;
                let Ok(msg) = &self.msg else {
                    return Err($crate::Refusal::HoldsRefusal);
                };
                if let Tmessage::Walk(walk) = msg {
                    if let Some(names) = walk.wnames.lent() {
                        let (tag, fid, newfid) = (self.tag, walk.fid, walk.newfid);
                        let head = $crate::WalkHead { tag, fid, newfid };
                        return $crate::tables::write_names(out, head, names);
                    }
                }
                written_t(self.tag, msg, out).told()
            }
        }

        impl Rframe<'_> {
            /// Writes the reply at the front of the output, and answers its length. Refused, the output
            /// is as it was; 18 where a stat's strings are longer than its count can say.
            #[inline]
            pub fn encode(&self, out: &mut [u8]) -> Result<usize, $crate::Refusal> {
                use $crate::ffi::Told;
                if let Some(ty) = self.msg.empty() {
                    let values = &[0; $crate::boundary::PLAIN_R_VALUES];
                    return $write_r(out, &[], (ty, self.tag), values).told();
                }
                if let Rmessage::Walk(walk) = &self.msg {
                    if let Some(qids) = walk.wqids.lent() {
                        return $crate::ffi::write_rwalk(out, self.tag, qids);
                    }
                }
                written_r(self.tag, &self.msg, out).told()
            }
        }

        fn written_t(
            tag: $crate::Tag,
            msg: &Tmessage,
            out: &mut [u8],
        ) -> $crate::boundary::Outcome {
            let mut values = [0; $crate::boundary::PLAIN_T_VALUES];
            let (ty, strings): (_, [_; $strings]) = msg.put(&mut values);
            $crate::older::in_one(strings, |lent| $write_t(out, lent, (ty, tag), &values))
        }

        fn written_r(
            tag: $crate::Tag,
            msg: &Rmessage,
            out: &mut [u8],
        ) -> $crate::boundary::Outcome {
            let mut values = [0; $crate::boundary::PLAIN_R_VALUES];
            let (ty, strings): (_, [_; $strings]) = msg.put(&mut values);
            $crate::older::in_one(strings, |lent| $write_r(out, lent, (ty, tag), &values))
        }
    };
}

pub(crate) use encodes;

/// The library takes one slice that all spans point into. Data and a string alone are lent as they are;
/// several strings are put together first: on the stack, or long ones on the heap.
#[inline(always)]
pub fn in_one<const S: usize>(
    strings: [&[u8]; S],
    write: impl FnOnce(&[u8]) -> Outcome,
) -> Outcome {
    if let [only, others @ ..] = &strings[..] {
        if others.iter().all(|string| string.is_empty()) {
            return write(only);
        }
    }
    let len = strings.iter().map(|string| string.len()).sum();
    let wrote = match len {
        0..=SHORT => write(joined(&strings, &mut [0; SHORT][..len])),
        _ => write(&strings.concat()),
    };
    in_its_own(&strings, wrote)
}

/// Into as many bytes as they have.
fn joined<'t>(strings: &[&[u8]], text: &'t mut [u8]) -> &'t [u8] {
    let mut rest = &mut *text;
    for string in strings {
        let (place, after) = rest.split_at_mut(string.len());
        place.copy_from_slice(string);
        rest = after;
    }
    text
}

/// The caller does not know the text that was put together, so a refusal's place is told in the string
/// that it stands in.
#[inline(always)]
fn in_its_own(strings: &[&[u8]], mut wrote: Outcome) -> Outcome {
    if matches!(wrote.refusal, 5 | 6) {
        for string in strings {
            match wrote.place.checked_sub(string.len()) {
                Some(after) => wrote.place = after,
                None => break,
            }
        }
    }
    wrote
}

//! The second yardstick: a source file that `run --limit FILE.rs` compiles as the crate `limit`. It
//! has the calls of document 01 alone: boxes of bytes 0 and 1, and a scratch of 0 and 1.

use super::pictures::Picture;
use super::sides::{Buffers, Call, Outcome};

pub const GIVEN: bool = cfg!(limit);

/// The sides of a picture's boxes, which are its bytes to the limit, and the limit's work room.
/// They say the same as long as no group or folder is empty.
#[cfg(limit)]
pub struct Given {
    sides: Vec<u8>,
    space: Box<limit::Space>,
}

#[cfg(limit)]
impl Given {
    pub fn new(picture: &Picture) -> Given {
        Given {
            sides: picture.boxes.iter().map(|byte| byte % 2).collect(),
            space: limit::Space::new(),
        }
    }

    /// A call that asks for a user, a file and a mode.
    pub fn run(
        &mut self,
        p: &Picture,
        asked: (u16, u16, u16),
        call: Call,
        b: &mut Buffers,
    ) -> Outcome {
        let pic = limit::Pic {
            boxes: &self.sides,
            rows: &p.rows,
            arrows: &p.arrows,
        };
        let (s, (user, file, mode)) = (&mut *self.space, asked);
        let entry = |answer| match answer {
            limit::Entry::Denied(k) => [0, k as u64, 0],
            limit::Entry::Granted(k) => [1, k as u64, 0],
            limit::Entry::Unclear(p, n) => [2, p as u64, n as u64],
            limit::Entry::Default => [3, 0, 0],
        };
        match call {
            Call::Fill | Call::Entry => {
                limit::entry(s, pic, user, file, mode, &mut b.scratch).map(entry)
            }
            Call::Judge => limit::judge(s, pic, &mut b.scratch).map(|()| [0; 3]),
            Call::Matrix => {
                limit::matrix(s, pic, mode, &mut b.scratch, &mut b.bytes, &mut b.numbers)
                    .map(|()| [0; 3])
            }
            Call::List => limit::list(s, pic, mode, &mut b.scratch, &mut b.list, &mut b.work)
                .map(|count| [count as u64, 0, 0]),
            Call::Atoms | Call::Read | Call::Pack => unreachable!("a call that the limit lacks"),
        }
    }
}

#[cfg(not(limit))]
pub struct Given;

#[cfg(not(limit))]
impl Given {
    pub fn new(_: &Picture) -> Given {
        Given
    }

    pub fn run(&mut self, _: &Picture, _: (u16, u16, u16), _: Call, _: &mut Buffers) -> Outcome {
        unreachable!("no limit is given")
    }
}

//! Takes replies apart. A reply that the header rules out is a fault of the library and ends in a
//! panic.

use crate::ffi::{Reply, DENIED, DENIED_BY_DEFAULT, DONE, GRANTED, REFUSED, UNCLEAR};
use crate::{Answer, Refusal};

impl Reply {
    fn broken(self) -> ! {
        panic!("a reply that the header rules out: {self:?}")
    }

    fn refusal(self) -> Refusal {
        Refusal::from_numbers(self.number, [self.a, self.b, self.c])
            .unwrap_or_else(|| self.broken())
    }

    /// A number of the reply as the type that holds it.
    fn fit<T: TryFrom<u64>>(self, number: u64) -> T {
        T::try_from(number).unwrap_or_else(|_| self.broken())
    }

    /// The three numbers of a call that is done.
    pub fn counts(self) -> Result<[usize; 3], Refusal> {
        match (self.kind, self.number) {
            (DONE, 0) => Ok([self.a, self.b, self.c].map(|number| self.fit(number))),
            (REFUSED, _) => Err(self.refusal()),
            _ => self.broken(),
        }
    }

    /// The two numbers of a call that is done.
    pub fn two_counts(self) -> Result<[usize; 2], Refusal> {
        match self.counts()? {
            [a, b, 0] => Ok([a, b]),
            _ => self.broken(),
        }
    }

    /// The one number of a call that is done.
    pub fn count(self) -> Result<usize, Refusal> {
        match self.two_counts()? {
            [count, 0] => Ok(count),
            _ => self.broken(),
        }
    }

    /// A call that is done and names no number.
    pub fn done(self) -> Result<(), Refusal> {
        match self.count()? {
            0 => Ok(()),
            _ => self.broken(),
        }
    }

    /// The answer for one pair.
    pub fn answer(self) -> Result<Answer, Refusal> {
        let Reply { kind, a, b, c, .. } = self;
        match (kind, self.number, a, b, c) {
            (GRANTED, 0, _, 0, 0) => Ok(Answer::Granted { arrow: self.fit(a) }),
            (DENIED, 0, _, 0, 0) => Ok(Answer::Denied { arrow: self.fit(a) }),
            (DENIED_BY_DEFAULT, 0, 0, 0, 0) => Ok(Answer::DeniedByDefault),
            (UNCLEAR, 0, _, _, 0) => Ok(Answer::Unclear {
                positive: self.fit(a),
                negative: self.fit(b),
            }),
            (REFUSED, ..) => Err(self.refusal()),
            _ => self.broken(),
        }
    }
}

#[cfg(test)]
mod tests {
    use super::*;

    fn reply(kind: u32, number: u32, a: u64, b: u64, c: u64) -> Reply {
        Reply {
            kind,
            number,
            a,
            b,
            c,
        }
    }

    fn broken<T>(call: impl FnOnce() -> T + std::panic::UnwindSafe) -> bool {
        std::panic::catch_unwind(call).is_err()
    }

    #[test]
    fn a_zeroed_reply_grants_nothing() {
        let answer = reply(0, 0, 0, 0, 0).answer();
        assert_eq!(answer, Ok(Answer::Denied { arrow: 0 }));
    }

    #[test]
    fn answers() {
        let granted = Ok(Answer::Granted { arrow: 511 });
        assert_eq!(reply(GRANTED, 0, 511, 0, 0).answer(), granted);
        let unclear = Answer::Unclear {
            positive: 3,
            negative: 2,
        };
        assert_eq!(reply(UNCLEAR, 0, 3, 2, 0).answer(), Ok(unclear));
        let default = reply(DENIED_BY_DEFAULT, 0, 0, 0, 0);
        assert_eq!(default.answer(), Ok(Answer::DeniedByDefault));
        let refused = Err(Refusal::ContainsItself { box_number: 4 });
        assert_eq!(reply(REFUSED, 10, 4, 0, 0).answer(), refused);
    }

    #[test]
    fn what_the_header_rules_out() {
        assert!(broken(|| reply(6, 0, 0, 0, 0).answer()));
        assert!(broken(|| reply(DONE, 0, 0, 0, 0).answer()));
        assert!(broken(|| reply(GRANTED, 0, 65_536, 0, 0).answer()));
        assert!(broken(|| reply(DENIED_BY_DEFAULT, 0, 1, 0, 0).answer()));
        assert!(broken(|| reply(GRANTED, 0, 1, 0, 0).done()));
        assert!(broken(|| reply(DONE, 0, 1, 0, 0).done()));
        assert!(broken(|| reply(DONE, 1, 0, 0, 0).done()));
        assert!(broken(|| reply(REFUSED, 0, 0, 0, 0).done()));
        assert!(broken(|| reply(REFUSED, 10, 4, 1, 0).done()));
    }
}
